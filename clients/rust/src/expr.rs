//! Expressions, as a Polars user writes them.

use crate::column::DataType;
use crate::literal::{Literal, TypedLiteral};
use crate::read::Reader;
use crate::write::write_string;
use std::fmt;
use std::sync::Arc;

macro_rules! named {
    ($(#[$note:meta])* $type:ident { $($(#[$of:meta])* $variant:ident => $name:literal,)* }) => {
        $(#[$note])*
        #[derive(Clone, Copy, Debug, PartialEq, Eq, Hash)]
        pub enum $type {
            $($(#[$of])* $variant,)*
        }

        impl $type {
            /// Every one of them.
            pub const ALL: [$type; [$($name),*].len()] = [$($type::$variant),*];

            /// The name in documents.
            #[must_use]
            pub const fn name(self) -> &'static str {
                match self {
                    $($type::$variant => $name,)*
                }
            }
        }
    };
}

named! {
    /// An operator of two operands. Integers wrap.
    #[allow(missing_docs)]
    Operator {
        Eq => "Eq",
        /// Two nulls are equal, and a null is unlike every value.
        EqValidity => "EqValidity",
        NotEq => "NotEq",
        NotEqValidity => "NotEqValidity",
        Lt => "Lt",
        LtEq => "LtEq",
        Gt => "Gt",
        GtEq => "GtEq",
        Plus => "Plus",
        Minus => "Minus",
        Multiply => "Multiply",
        /// Floor division, null by 0.
        Divide => "Divide",
        /// Documents have it, and no expression of it passes the check.
        TrueDivide => "TrueDivide",
        /// Floor division, null by 0.
        FloorDivide => "FloorDivide",
        /// The rest of floor division, null by 0.
        Modulus => "Modulus",
        And => "And",
        Or => "Or",
        Xor => "Xor",
        LogicalAnd => "LogicalAnd",
        LogicalOr => "LogicalOr",
    }
}

named! {
    /// A function.
    #[allow(missing_docs)]
    Function {
        Not => "not",
        Negate => "negate",
        IsNull => "is_null",
        IsNotNull => "is_not_null",
        /// a + b·c
        MultiplyAdd => "fma",
        /// a - b·c
        SubMultiply => "fsm",
        /// a·b - c
        MultiplySub => "fms",
    }
}

named! {
    /// What a cast does with a value that its target lacks.
    CastOptions {
        /// It is a fault.
        Strict => "strict",
        /// It is null.
        NonStrict => "nonstrict",
        /// It wraps.
        Overflowing => "overflowing",
    }
}

/// What stands at a place of an expression; its inputs are [`Expr::inputs`].
#[derive(Clone, Debug, PartialEq, Eq, Hash)]
#[non_exhaustive]
pub enum Node {
    /// The column of this name.
    Column(String),
    /// A value, or a column of its own.
    Literal(Literal),
    /// The input under another name.
    Alias(String),
    /// An operator over two inputs.
    Binary(Operator),
    /// The input as another type.
    Cast(DataType, CastOptions),
    /// Row by row the second input where the first is true, else the third.
    When,
    /// A function of the inputs.
    Function(Function),
}

/// An expression. A copy is cheap: it shares the inputs.
///
/// ```
/// use px::{Expr, col, lit, when};
///
/// let total = (col("qty") * col("price")).alias("total");
/// let due = !(col("paid") | col("price").lt_eq(500));
/// let status = when(col("qty").is_null()).then(0).when(col("paid")).then(1).otherwise(2);
/// assert_eq!(
///     total.to_json(),
///     r#"{"alias":[{"binary":[{"col":"qty"},"Multiply",{"col":"price"}]},"total"]}"#
/// );
/// assert_eq!(due.to_string(), r#"(col("paid") | (col("price") <= 500)).not()"#);
/// assert_eq!(status.columns(), ["qty", "paid"]);
/// assert_eq!(lit(5) + "a", Expr::from(5) + col("a"));
/// ```
///
/// As in Polars, a string in the place of an expression is the name of a column, and a number or a
/// Boolean is a literal. A document nests at most 127 deep: an expression that is deeper is built and
/// written all the same, and a call with it answers [`Error::NoDocument`](crate::Error::NoDocument).
#[derive(Clone)]
pub struct Expr(Arc<Tree>);

struct Tree {
    node: Node,
    inputs: Vec<Expr>,
}

/// The column of this name.
pub fn col(name: impl Into<String>) -> Expr {
    Expr::leaf(Node::Column(name.into()))
}

/// A literal: [`NULL`](crate::NULL), a Boolean, an integer whose type the check finds, or a column of
/// its own.
pub fn lit(value: impl Into<Literal>) -> Expr {
    Expr::leaf(Node::Literal(value.into()))
}

/// An integer literal of the number's own type.
///
/// ```
/// assert_eq!(px::typed_lit(5_i64).to_json(), r#"{"lit":{"dtype":"Int64","value":5}}"#);
/// ```
pub fn typed_lit(number: impl TypedLiteral) -> Expr {
    lit(number.typed())
}

impl Expr {
    pub(crate) fn leaf(node: Node) -> Expr {
        Expr::of(node, Vec::new())
    }

    pub(crate) fn of(node: Node, inputs: Vec<Expr>) -> Expr {
        Expr(Arc::new(Tree { node, inputs }))
    }

    /// What stands at the root.
    #[must_use]
    pub fn node(&self) -> &Node {
        &self.0.node
    }

    /// The inputs of the root, from left to right.
    #[must_use]
    pub fn inputs(&self) -> &[Expr] {
        &self.0.inputs
    }

    /// The expression of this form, written as px writes it: compact, with the members of a column
    /// and of a literal in the order `dtype`, `name` and `values` or `value`. None for another text.
    ///
    /// ```
    /// let form = r#"{"fn":["not",{"col":"paid"}]}"#;
    /// assert_eq!(px::Expr::from_json(form), Some(!px::col("paid")));
    /// assert_eq!(px::Expr::from_json(&form[1..]), None);
    /// ```
    #[must_use]
    pub fn from_json(form: &str) -> Option<Expr> {
        Reader::new(form).tree()
    }

    /// The form of the expression in a document.
    #[must_use]
    pub fn to_json(&self) -> String {
        let mut out = String::new();
        self.write(&mut out);
        out
    }

    pub(crate) fn write(&self, out: &mut String) {
        unroll(self, out, form);
    }

    /// The names of the columns that the expression reads, each once, in the order in which they
    /// come.
    #[must_use]
    pub fn columns(&self) -> Vec<&str> {
        let mut names = Vec::new();
        for place in self.places() {
            if let Node::Column(name) = place.node()
                && !names.contains(&name.as_str())
            {
                names.push(name);
            }
        }
        names
    }

    /// Every place of the expression: the root, and then those of its inputs, from left to right.
    pub fn places(&self) -> impl Iterator<Item = &Expr> {
        let mut left = vec![self];
        std::iter::from_fn(move || {
            let place = left.pop()?;
            left.extend(place.inputs().iter().rev());
            Some(place)
        })
    }
}

impl Drop for Tree {
    /// Drops the inputs from a list, so that no depth of an expression is too much for the stack.
    fn drop(&mut self) {
        let mut left = std::mem::take(&mut self.inputs);
        while let Some(expr) = left.pop() {
            if let Some(mut tree) = Arc::into_inner(expr.0) {
                left.append(&mut tree.inputs);
            }
        }
    }
}

impl PartialEq for Expr {
    fn eq(&self, other: &Expr) -> bool {
        let mut left = vec![(self, other)];
        while let Some((a, b)) = left.pop() {
            if Arc::ptr_eq(&a.0, &b.0) {
                continue;
            }
            if a.node() != b.node() || a.inputs().len() != b.inputs().len() {
                return false;
            }
            left.extend(a.inputs().iter().zip(b.inputs()));
        }
        true
    }
}

impl Eq for Expr {}

impl fmt::Display for Expr {
    fn fmt(&self, f: &mut fmt::Formatter<'_>) -> fmt::Result {
        let mut out = String::new();
        unroll(self, &mut out, shown);
        f.write_str(&out)
    }
}

impl fmt::Debug for Expr {
    fn fmt(&self, f: &mut fmt::Formatter<'_>) -> fmt::Result {
        fmt::Display::fmt(self, f)
    }
}

/// A part of an expression's text.
enum Part<'e> {
    Text(String),
    Input(&'e Expr),
}

/// Writes the parts of the expression, and in place of each input the parts of that.
fn unroll<'e>(root: &'e Expr, out: &mut String, parts_of: fn(&'e Expr, &mut Vec<Part<'e>>)) {
    let mut left = vec![Part::Input(root)];
    while let Some(part) = left.pop() {
        match part {
            Part::Text(text) => out.push_str(&text),
            Part::Input(expr) => {
                let start = left.len();
                parts_of(expr, &mut left);
                left[start..].reverse();
            }
        }
    }
}

/// The parts of the text, in which each `@` stands for an input.
fn with_inputs<'e>(text: &str, inputs: &'e [Expr], parts: &mut Vec<Part<'e>>) {
    let mut pieces = text.split('@');
    parts.extend(pieces.next().map(|piece| Part::Text(piece.to_string())));
    for (piece, input) in pieces.zip(inputs) {
        parts.push(Part::Input(input));
        parts.push(Part::Text(piece.to_string()));
    }
}

fn form<'e>(expr: &'e Expr, parts: &mut Vec<Part<'e>>) {
    let inputs = expr.inputs();
    match expr.node() {
        Node::Column(name) => parts.push(Part::Text(format!("{{\"col\":{}}}", quoted(name)))),
        Node::Literal(value) => {
            let mut text = String::new();
            value.write(&mut text);
            parts.push(Part::Text(text));
        }
        Node::Alias(name) => {
            with_inputs("{\"alias\":[@", inputs, parts);
            parts.push(Part::Text(format!(",{}]}}", quoted(name))));
        }
        Node::Binary(operator) => {
            let text = format!("{{\"binary\":[@,\"{}\",@]}}", operator.name());
            with_inputs(&text, inputs, parts);
        }
        Node::Cast(dtype, options) => {
            let text = format!("{{\"cast\":[@,\"{dtype}\",\"{}\"]}}", options.name());
            with_inputs(&text, inputs, parts);
        }
        Node::When => with_inputs("{\"when\":[@,@,@]}", inputs, parts),
        Node::Function(function) => {
            let text = ",@".repeat(inputs.len());
            with_inputs(
                &format!("{{\"fn\":[\"{}\"{text}]}}", function.name()),
                inputs,
                parts,
            );
        }
    }
}

fn quoted(text: &str) -> String {
    let mut out = String::new();
    write_string(&mut out, text);
    out
}

fn symbol(operator: Operator) -> &'static str {
    match operator {
        Operator::Eq => "==",
        Operator::EqValidity => "==v",
        Operator::NotEq => "!=",
        Operator::NotEqValidity => "!=v",
        Operator::Lt => "<",
        Operator::LtEq => "<=",
        Operator::Gt => ">",
        Operator::GtEq => ">=",
        Operator::Plus => "+",
        Operator::Minus => "-",
        Operator::Multiply => "*",
        Operator::Divide | Operator::TrueDivide => "/",
        Operator::FloorDivide => "//",
        Operator::Modulus => "%",
        Operator::And => "&",
        Operator::Or => "|",
        Operator::Xor => "^",
        Operator::LogicalAnd => "&&",
        Operator::LogicalOr => "||",
    }
}

fn shown<'e>(expr: &'e Expr, parts: &mut Vec<Part<'e>>) {
    let inputs = expr.inputs();
    match expr.node() {
        Node::Column(name) => parts.push(Part::Text(format!("col({name:?})"))),
        Node::Literal(value) => parts.push(Part::Text(value.to_string())),
        Node::Alias(name) => {
            with_inputs("@", inputs, parts);
            parts.push(Part::Text(format!(".alias({name:?})")));
        }
        Node::Binary(operator) => {
            with_inputs(&format!("(@ {} @)", symbol(*operator)), inputs, parts);
        }
        Node::Cast(dtype, options) => {
            let name = match options {
                CastOptions::Strict => "strict_cast",
                CastOptions::NonStrict => "cast",
                CastOptions::Overflowing => "overflowing_cast",
            };
            with_inputs(&format!("@.{name}({dtype})"), inputs, parts);
        }
        Node::When => with_inputs("when(@).then(@).otherwise(@)", inputs, parts),
        Node::Function(function) if inputs.len() == 1 => {
            let name = match function {
                Function::Negate => "neg",
                function => function.name(),
            };
            with_inputs(&format!("@.{name}()"), inputs, parts);
        }
        Node::Function(function) => {
            let text = vec!["@"; inputs.len()].join(", ");
            with_inputs(&format!("{}({text})", function.name()), inputs, parts);
        }
    }
}
