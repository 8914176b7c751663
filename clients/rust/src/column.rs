//! Columns of nulls and values.

use crate::write::{write_integers, write_string, write_values};
use std::fmt;

/// The type of a column.
#[derive(Clone, Copy, Debug, PartialEq, Eq, Hash)]
#[allow(missing_docs)]
pub enum DataType {
    Null,
    Boolean,
    String,
    UInt8,
    UInt16,
    UInt32,
    UInt64,
    Int8,
    Int16,
    Int32,
    Int64,
}

impl DataType {
    /// Every type of columns.
    pub const ALL: [DataType; 11] = [
        DataType::Null,
        DataType::Boolean,
        DataType::String,
        DataType::UInt8,
        DataType::UInt16,
        DataType::UInt32,
        DataType::UInt64,
        DataType::Int8,
        DataType::Int16,
        DataType::Int32,
        DataType::Int64,
    ];

    /// The name of the type in documents.
    #[must_use]
    pub const fn name(self) -> &'static str {
        match self {
            DataType::Null => "Null",
            DataType::Boolean => "Boolean",
            DataType::String => "String",
            DataType::UInt8 => "UInt8",
            DataType::UInt16 => "UInt16",
            DataType::UInt32 => "UInt32",
            DataType::UInt64 => "UInt64",
            DataType::Int8 => "Int8",
            DataType::Int16 => "Int16",
            DataType::Int32 => "Int32",
            DataType::Int64 => "Int64",
        }
    }
}

impl fmt::Display for DataType {
    fn fmt(&self, f: &mut fmt::Formatter<'_>) -> fmt::Result {
        f.write_str(self.name())
    }
}

/// The rows of a column.
#[derive(Clone, Debug, PartialEq, Eq, Hash)]
#[allow(missing_docs)]
pub enum Values {
    /// So many nulls.
    Null(usize),
    Boolean(Vec<Option<bool>>),
    String(Vec<Option<String>>),
    UInt8(Vec<Option<u8>>),
    UInt16(Vec<Option<u16>>),
    UInt32(Vec<Option<u32>>),
    UInt64(Vec<Option<u64>>),
    Int8(Vec<Option<i8>>),
    Int16(Vec<Option<i16>>),
    Int32(Vec<Option<i32>>),
    Int64(Vec<Option<i64>>),
}

impl Values {
    /// The type of the column that has these rows.
    #[must_use]
    pub fn dtype(&self) -> DataType {
        match self {
            Values::Null(_) => DataType::Null,
            Values::Boolean(_) => DataType::Boolean,
            Values::String(_) => DataType::String,
            Values::UInt8(_) => DataType::UInt8,
            Values::UInt16(_) => DataType::UInt16,
            Values::UInt32(_) => DataType::UInt32,
            Values::UInt64(_) => DataType::UInt64,
            Values::Int8(_) => DataType::Int8,
            Values::Int16(_) => DataType::Int16,
            Values::Int32(_) => DataType::Int32,
            Values::Int64(_) => DataType::Int64,
        }
    }

    /// The number of rows.
    #[must_use]
    pub fn len(&self) -> usize {
        match self {
            Values::Null(count) => *count,
            Values::Boolean(rows) => rows.len(),
            Values::String(rows) => rows.len(),
            Values::UInt8(rows) => rows.len(),
            Values::UInt16(rows) => rows.len(),
            Values::UInt32(rows) => rows.len(),
            Values::UInt64(rows) => rows.len(),
            Values::Int8(rows) => rows.len(),
            Values::Int16(rows) => rows.len(),
            Values::Int32(rows) => rows.len(),
            Values::Int64(rows) => rows.len(),
        }
    }

    /// Whether there is no row.
    #[must_use]
    pub fn is_empty(&self) -> bool {
        self.len() == 0
    }

    pub(crate) fn empty(dtype: DataType) -> Values {
        match dtype {
            DataType::Null => Values::Null(0),
            DataType::Boolean => Values::Boolean(Vec::new()),
            DataType::String => Values::String(Vec::new()),
            DataType::UInt8 => Values::UInt8(Vec::new()),
            DataType::UInt16 => Values::UInt16(Vec::new()),
            DataType::UInt32 => Values::UInt32(Vec::new()),
            DataType::UInt64 => Values::UInt64(Vec::new()),
            DataType::Int8 => Values::Int8(Vec::new()),
            DataType::Int16 => Values::Int16(Vec::new()),
            DataType::Int32 => Values::Int32(Vec::new()),
            DataType::Int64 => Values::Int64(Vec::new()),
        }
    }

    fn write(&self, out: &mut String) {
        match self {
            Values::Null(count) => write_values(out, std::iter::repeat_n((), *count), |out, ()| {
                out.push_str("null");
            }),
            Values::Boolean(rows) => write_values(out, rows, |out, row| {
                out.push_str(match row {
                    None => "null",
                    Some(true) => "true",
                    Some(false) => "false",
                });
            }),
            Values::String(rows) => write_values(out, rows, |out, row| match row {
                None => out.push_str("null"),
                Some(text) => write_string(out, text),
            }),
            Values::UInt8(rows) => write_integers(out, rows),
            Values::UInt16(rows) => write_integers(out, rows),
            Values::UInt32(rows) => write_integers(out, rows),
            Values::UInt64(rows) => write_integers(out, rows),
            Values::Int8(rows) => write_integers(out, rows),
            Values::Int16(rows) => write_integers(out, rows),
            Values::Int32(rows) => write_integers(out, rows),
            Values::Int64(rows) => write_integers(out, rows),
        }
    }
}

/// A name and rows.
///
/// ```
/// use px::{Column, DataType};
///
/// let column = Column::new("a", [Some(1), None, Some(3)]);
/// assert_eq!(column.dtype(), DataType::Int32);
/// assert_eq!(column.rows::<i32>(), Some([Some(1), None, Some(3)].as_slice()));
///
/// let bytes: &[u8] = &[1, 2, 3];
/// assert_eq!(Column::new("b", bytes).dtype(), DataType::UInt8);
/// ```
#[derive(Clone, Debug, PartialEq, Eq, Hash)]
pub struct Column {
    /// The column's name.
    pub name: String,
    /// The column's rows.
    pub values: Values,
}

impl Column {
    /// The column of these rows, each a value or an `Option` of one.
    pub fn new<R>(name: impl Into<String>, rows: R) -> Column
    where
        R: IntoIterator,
        R::Item: Row,
    {
        let rows = rows.into_iter().map(Row::into_row).collect();
        Column {
            name: name.into(),
            values: Native::into_values(rows),
        }
    }

    /// A column of so many nulls, of the type `Null`.
    pub fn nulls(name: impl Into<String>, count: usize) -> Column {
        Column {
            name: name.into(),
            values: Values::Null(count),
        }
    }

    /// A column of the type without a row: for a plan, where only the schema is known.
    pub fn empty(name: impl Into<String>, dtype: DataType) -> Column {
        Column {
            name: name.into(),
            values: Values::empty(dtype),
        }
    }

    /// The type of the column.
    #[must_use]
    pub fn dtype(&self) -> DataType {
        self.values.dtype()
    }

    /// The rows, if they are of this type.
    #[must_use]
    pub fn rows<T: Native>(&self) -> Option<&[Option<T>]> {
        T::rows(&self.values)
    }

    pub(crate) fn write(&self, out: &mut String) {
        out.push_str("{\"dtype\":\"");
        out.push_str(self.dtype().name());
        out.push_str("\",\"name\":");
        write_string(out, &self.name);
        out.push_str(",\"values\":[");
        self.values.write(out);
        out.push_str("]}");
    }
}

mod sealed {
    pub trait Sealed {}
}

/// A type of values in Rust that a column has: `bool`, `String` and the eight integer types.
pub trait Native: sealed::Sealed + Clone + Sized {
    /// These rows, as those of a column.
    fn into_values(rows: Vec<Option<Self>>) -> Values;

    /// The rows, if they are of this type.
    fn rows(values: &Values) -> Option<&[Option<Self>]>;
}

/// A row of a column: a value, an `Option` of one, or a reference to either.
pub trait Row {
    /// The value that the row has.
    type Value: Native;

    /// The value, or None for a null.
    fn into_row(self) -> Option<Self::Value>;
}

impl<T: Native> Row for Option<T> {
    type Value = T;

    fn into_row(self) -> Option<T> {
        self
    }
}

impl<T: Native> Row for &Option<T> {
    type Value = T;

    fn into_row(self) -> Option<T> {
        self.clone()
    }
}

impl Row for &str {
    type Value = String;

    fn into_row(self) -> Option<String> {
        Some(self.to_string())
    }
}

impl Row for Option<&str> {
    type Value = String;

    fn into_row(self) -> Option<String> {
        self.map(str::to_string)
    }
}

macro_rules! natives {
    ($($native:ty => $variant:ident,)*) => {$(
        impl sealed::Sealed for $native {}

        impl Native for $native {
            fn into_values(rows: Vec<Option<$native>>) -> Values {
                Values::$variant(rows)
            }

            fn rows(values: &Values) -> Option<&[Option<$native>]> {
                match values {
                    Values::$variant(rows) => Some(rows),
                    _ => None,
                }
            }
        }

        impl Row for $native {
            type Value = $native;

            fn into_row(self) -> Option<$native> {
                Some(self)
            }
        }

        impl Row for &$native {
            type Value = $native;

            fn into_row(self) -> Option<$native> {
                Some(self.clone())
            }
        }
    )*};
}

natives! {
    bool => Boolean,
    String => String,
    u8 => UInt8,
    u16 => UInt16,
    u32 => UInt32,
    u64 => UInt64,
    i8 => Int8,
    i16 => Int16,
    i32 => Int32,
    i64 => Int64,
}
