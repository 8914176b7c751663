//! How expressions are built: methods and operators.

use crate::column::{Column, DataType};
use crate::expr::{CastOptions, Expr, Function, Node, Operator, col, lit};
use crate::literal::{Literal, Null};
use std::ops::{Add, BitAnd, BitOr, BitXor, Div, Mul, Neg, Not, Rem, Sub};

impl From<&str> for Expr {
    /// The column of this name.
    fn from(name: &str) -> Expr {
        col(name)
    }
}

impl From<Literal> for Expr {
    fn from(value: Literal) -> Expr {
        lit(value)
    }
}

macro_rules! literals {
    ($($native:ty)*) => {$(
        impl From<$native> for Expr {
            /// The literal of this value.
            fn from(value: $native) -> Expr {
                lit(value)
            }
        }
    )*};
}

literals! { Null Column bool u8 u16 u32 u64 i8 i16 i32 i64 i128 }

macro_rules! binary_methods {
    ($($(#[$note:meta])* $method:ident => $operator:ident,)*) => {
        /// Operators.
        #[allow(clippy::should_implement_trait)]
        impl Expr {$(
            $(#[$note])*
            pub fn $method(self, other: impl Into<Expr>) -> Expr {
                self.binary(Operator::$operator, other)
            }
        )*}
    };
}

binary_methods! {
    /// Whether the rows are equal; null where either is.
    eq => Eq,
    /// Whether the rows differ; null where either is null.
    neq => NotEq,
    /// Whether the rows are equal, where two nulls are.
    eq_missing => EqValidity,
    /// Whether the rows differ, where two nulls do not.
    neq_missing => NotEqValidity,
    /// Whether the row is less.
    lt => Lt,
    /// Whether the row is less or equal.
    lt_eq => LtEq,
    /// Whether the row is greater.
    gt => Gt,
    /// Whether the row is greater or equal.
    gt_eq => GtEq,
    /// The floor quotient, null by 0.
    floor_div => FloorDivide,
    /// `and` of Booleans in Kleene logic, or bit by bit of integers: the operator `&`.
    and => And,
    /// `or` of Booleans in Kleene logic, or bit by bit of integers: the operator `|`.
    or => Or,
    /// Exclusive `or` of Booleans, or bit by bit of integers: the operator `^`.
    xor => Xor,
    /// `and` of Booleans alone.
    logical_and => LogicalAnd,
    /// `or` of Booleans alone.
    logical_or => LogicalOr,
}

macro_rules! binary_operators {
    ($($(#[$note:meta])* $operator:ident $method:ident => $variant:ident,)*) => {$(
        impl<R: Into<Expr>> $operator<R> for Expr {
            type Output = Expr;

            $(#[$note])*
            fn $method(self, other: R) -> Expr {
                self.binary(Operator::$variant, other)
            }
        }
    )*};
}

binary_operators! {
    /// The sum, which wraps.
    Add add => Plus,
    /// The difference, which wraps.
    Sub sub => Minus,
    /// The product, which wraps.
    Mul mul => Multiply,
    /// The floor quotient, null by 0.
    Div div => Divide,
    /// The rest of floor division, null by 0.
    Rem rem => Modulus,
    /// `and` of Booleans in Kleene logic, or bit by bit of integers.
    BitAnd bitand => And,
    /// `or` of Booleans in Kleene logic, or bit by bit of integers.
    BitOr bitor => Or,
    /// Exclusive `or` of Booleans, or bit by bit of integers.
    BitXor bitxor => Xor,
}

impl Not for Expr {
    type Output = Expr;

    /// The negation of Booleans, or of each bit of integers.
    fn not(self) -> Expr {
        Expr::function(Function::Not, [self])
    }
}

impl Neg for Expr {
    type Output = Expr;

    /// The negative of signed integers, which wraps.
    fn neg(self) -> Expr {
        Expr::function(Function::Negate, [self])
    }
}

/// Names, casts, functions.
impl Expr {
    /// The operator over two operands.
    pub fn binary(self, operator: Operator, other: impl Into<Expr>) -> Expr {
        Expr::of(Node::Binary(operator), vec![self, other.into()])
    }

    /// The function of the inputs. A number of them that it does not take is refused by the check.
    pub fn function(function: Function, inputs: impl IntoIterator<Item = Expr>) -> Expr {
        Expr::of(Node::Function(function), inputs.into_iter().collect())
    }

    /// The expression under another name.
    pub fn alias(self, name: impl Into<String>) -> Expr {
        Expr::of(Node::Alias(name.into()), vec![self])
    }

    /// The expression as another type; a value that it lacks is null.
    pub fn cast(self, dtype: DataType) -> Expr {
        self.cast_with_options(dtype, CastOptions::NonStrict)
    }

    /// The expression as another type; a value that it lacks is a fault.
    pub fn strict_cast(self, dtype: DataType) -> Expr {
        self.cast_with_options(dtype, CastOptions::Strict)
    }

    /// The expression as another type; a number that it lacks wraps.
    pub fn overflowing_cast(self, dtype: DataType) -> Expr {
        self.cast_with_options(dtype, CastOptions::Overflowing)
    }

    /// The expression as another type.
    pub fn cast_with_options(self, dtype: DataType, options: CastOptions) -> Expr {
        Expr::of(Node::Cast(dtype, options), vec![self])
    }

    /// Whether the row is null.
    pub fn is_null(self) -> Expr {
        Expr::function(Function::IsNull, [self])
    }

    /// Whether the row is not null.
    pub fn is_not_null(self) -> Expr {
        Expr::function(Function::IsNotNull, [self])
    }
}

/// A condition that waits for its `then`.
#[derive(Clone, Debug)]
#[must_use]
pub struct When {
    branches: Vec<(Expr, Expr)>,
    condition: Expr,
}

/// Branches that wait for another `when` or for their `otherwise`.
#[derive(Clone, Debug)]
#[must_use]
pub struct Then {
    branches: Vec<(Expr, Expr)>,
}

/// Begins a choice, row by row: `when(..).then(..).otherwise(..)`. A null condition is not true.
pub fn when(condition: impl Into<Expr>) -> When {
    When {
        branches: Vec::new(),
        condition: condition.into(),
    }
}

impl When {
    /// The value where the condition is true and none before it was.
    pub fn then(mut self, value: impl Into<Expr>) -> Then {
        self.branches.push((self.condition, value.into()));
        Then {
            branches: self.branches,
        }
    }
}

impl Then {
    /// A condition for the rows at which none before it was true.
    pub fn when(self, condition: impl Into<Expr>) -> When {
        When {
            branches: self.branches,
            condition: condition.into(),
        }
    }

    /// The value where no condition was true.
    pub fn otherwise(self, value: impl Into<Expr>) -> Expr {
        let choose = |rest, (condition, value)| Expr::of(Node::When, vec![condition, value, rest]);
        self.branches.into_iter().rev().fold(value.into(), choose)
    }
}
