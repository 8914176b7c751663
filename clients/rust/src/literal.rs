//! Literals.

use crate::column::Column;
use crate::write::{write_number, write_string};
use std::fmt;

/// A value that stands in an expression.
#[derive(Clone, Debug, PartialEq, Eq, Hash)]
#[allow(missing_docs)]
#[non_exhaustive]
pub enum Literal {
    Null,
    Boolean(bool),
    /// A string: documents have it, and no expression of it passes the check.
    String(String),
    /// An integer whose type the check finds: that of the other operand where it has the number,
    /// else the first of `Int32`, `Int64` and `UInt64` that has it.
    Integer(i128),
    UInt8(u8),
    UInt16(u16),
    UInt32(u32),
    UInt64(u64),
    Int8(i8),
    Int16(i16),
    Int32(i32),
    Int64(i64),
    /// A column of its own.
    Series(Column),
}

/// The literal [`NULL`].
#[derive(Clone, Copy, Debug, PartialEq, Eq, Hash)]
pub struct Null;

/// The null of no type: `lit(NULL)`.
pub const NULL: Null = Null;

impl From<Null> for Literal {
    fn from(_: Null) -> Literal {
        Literal::Null
    }
}

impl From<bool> for Literal {
    fn from(truth: bool) -> Literal {
        Literal::Boolean(truth)
    }
}

impl From<&str> for Literal {
    fn from(text: &str) -> Literal {
        Literal::String(text.to_string())
    }
}

impl From<String> for Literal {
    fn from(text: String) -> Literal {
        Literal::String(text)
    }
}

impl From<Column> for Literal {
    fn from(column: Column) -> Literal {
        Literal::Series(column)
    }
}

macro_rules! integers {
    ($($native:ty)*) => {$(
        impl From<$native> for Literal {
            fn from(number: $native) -> Literal {
                Literal::Integer(number.into())
            }
        }
    )*};
}

integers! { u8 u16 u32 u64 i8 i16 i32 i64 i128 }

/// An integer of Rust that is the literal of a type: `typed_lit(5_i64)`.
pub trait TypedLiteral {
    /// The literal of the type that has the number.
    fn typed(self) -> Literal;
}

macro_rules! typed_integers {
    ($($native:ty => $variant:ident,)*) => {$(
        impl TypedLiteral for $native {
            fn typed(self) -> Literal {
                Literal::$variant(self)
            }
        }
    )*};
}

typed_integers! {
    u8 => UInt8,
    u16 => UInt16,
    u32 => UInt32,
    u64 => UInt64,
    i8 => Int8,
    i16 => Int16,
    i32 => Int32,
    i64 => Int64,
}

impl Literal {
    /// The type and the number of an integer with a type.
    fn typed_number(&self) -> Option<(&'static str, i128)> {
        match *self {
            Literal::UInt8(n) => Some(("UInt8", n.into())),
            Literal::UInt16(n) => Some(("UInt16", n.into())),
            Literal::UInt32(n) => Some(("UInt32", n.into())),
            Literal::UInt64(n) => Some(("UInt64", n.into())),
            Literal::Int8(n) => Some(("Int8", n.into())),
            Literal::Int16(n) => Some(("Int16", n.into())),
            Literal::Int32(n) => Some(("Int32", n.into())),
            Literal::Int64(n) => Some(("Int64", n.into())),
            _ => None,
        }
    }

    /// The form of the literal, as the object of an expression.
    pub(crate) fn write(&self, out: &mut String) {
        if let Literal::Series(column) = self {
            out.push_str("{\"series\":");
            column.write(out);
        } else {
            out.push_str("{\"lit\":");
            self.write_value(out);
        }
        out.push('}');
    }

    fn write_value(&self, out: &mut String) {
        if let Some((dtype, number)) = self.typed_number() {
            return write_number(
                out,
                format_args!("{{\"dtype\":\"{dtype}\",\"value\":{number}}}"),
            );
        }
        match self {
            Literal::Boolean(truth) => write_number(out, truth),
            Literal::String(text) => write_string(out, text),
            // JSON has the numbers of 64 bits, signed and unsigned; a longer one is a string.
            Literal::Integer(n) if (i64::MIN.into()..=u64::MAX.into()).contains(n) => {
                write_number(out, n);
            }
            Literal::Integer(n) => {
                write_number(out, format_args!("{{\"dtype\":\"Int\",\"value\":\"{n}\"}}"));
            }
            _ => out.push_str("null"),
        }
    }
}

impl fmt::Display for Literal {
    fn fmt(&self, f: &mut fmt::Formatter<'_>) -> fmt::Result {
        if let Some((_, number)) = self.typed_number() {
            return write!(f, "{number}");
        }
        match self {
            Literal::Boolean(truth) => write!(f, "{truth}"),
            Literal::String(text) => write!(f, "lit({text:?})"),
            Literal::Integer(number) => write!(f, "{number}"),
            Literal::Series(column) => write!(
                f,
                "series({:?}, {}, {} rows)",
                column.name,
                column.dtype(),
                column.values.len()
            ),
            _ => f.write_str("null"),
        }
    }
}
