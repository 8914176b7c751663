//! Reading what px writes: reports, trees and lines of faults. The text is compact and the members
//! of an object come in one order, so a reader only asks what comes next.

use crate::column::{Column, DataType, Native, Values};
use crate::expr::{CastOptions, Expr, Function, Node, Operator};
use crate::literal::Literal;

/// How many places of a tree may stand on one path. A document nests at most 127 deep, which is 63
/// places; the check puts at most one cast above each, and rewrites at most one alias.
const DEPTH: usize = 256;

/// The part of a text that is not read yet. Every call answers None where another text comes.
pub struct Reader<'t> {
    rest: &'t str,
}

impl<'t> Reader<'t> {
    pub fn new(text: &'t str) -> Reader<'t> {
        Reader { rest: text }
    }

    /// Whether exactly this comes next, which is then read.
    fn has(&mut self, text: &str) -> bool {
        match self.rest.strip_prefix(text) {
            Some(rest) => {
                self.rest = rest;
                true
            }
            None => false,
        }
    }

    fn expect(&mut self, text: &str) -> Option<()> {
        self.has(text).then_some(())
    }

    /// The end, behind a line feed if there is one.
    pub fn end(&mut self) -> Option<()> {
        self.has("\n");
        self.rest.is_empty().then_some(())
    }

    /// The characters for which the test holds.
    fn run(&mut self, test: impl Fn(char) -> bool) -> &'t str {
        let length = self.rest.find(|c| !test(c)).unwrap_or(self.rest.len());
        let (run, rest) = self.rest.split_at(length);
        self.rest = rest;
        run
    }

    /// A string.
    pub fn string(&mut self) -> Option<String> {
        self.expect("\"")?;
        let mut text = String::new();
        loop {
            text.push_str(self.run(|c| c != '"' && c != '\\'));
            if self.has("\"") {
                return Some(text);
            }
            self.expect("\\")?;
            text.push(self.escape()?);
        }
    }

    /// What stands behind a backslash.
    fn escape(&mut self) -> Option<char> {
        let c = self.rest.chars().next()?;
        self.rest = &self.rest[c.len_utf8()..];
        match c {
            '"' | '\\' | '/' => Some(c),
            'b' => Some('\u{8}'),
            'f' => Some('\u{c}'),
            'n' => Some('\n'),
            'r' => Some('\r'),
            't' => Some('\t'),
            'u' => self.unicode(),
            _ => None,
        }
    }

    /// The character of one unit of UTF-16, or of two.
    fn unicode(&mut self) -> Option<char> {
        let mut units = vec![self.unit()?];
        if (0xd800..0xdc00).contains(&units[0]) {
            self.expect("\\u")?;
            units.push(self.unit()?);
        }
        char::decode_utf16(units).next()?.ok()
    }

    fn unit(&mut self) -> Option<u16> {
        let digits = self.rest.get(..4)?;
        self.rest = &self.rest[4..];
        let is_hex = digits.bytes().all(|b| b.is_ascii_hexdigit());
        is_hex.then(|| u16::from_str_radix(digits, 16).ok())?
    }

    /// An integer that the type has.
    fn integer<T: std::str::FromStr>(&mut self) -> Option<T> {
        self.run(|c| c == '-' || c.is_ascii_digit()).parse().ok()
    }

    /// An integer as a number, or as a string of its digits.
    fn literal_integer<T: std::str::FromStr>(&mut self) -> Option<T> {
        if !self.has("\"") {
            return self.integer();
        }
        let number = self.integer()?;
        self.expect("\"")?;
        Some(number)
    }

    fn boolean(&mut self) -> Option<bool> {
        if self.has("true") {
            return Some(true);
        }
        self.has("false").then_some(false)
    }

    /// A null, or what is read.
    fn row<T>(&mut self, read: impl FnOnce(&mut Self) -> Option<T>) -> Option<Option<T>> {
        if self.has("null") {
            return Some(None);
        }
        read(self).map(Some)
    }

    /// Items with a comma between them, and the bracket that closes their list.
    fn items<T>(&mut self, mut read: impl FnMut(&mut Self) -> Option<T>) -> Option<Vec<T>> {
        let mut items = Vec::new();
        if self.has("]") {
            return Some(items);
        }
        loop {
            items.push(read(self)?);
            if self.has("]") {
                return Some(items);
            }
            self.expect(",")?;
        }
    }

    /// A string with the name of one of these.
    fn one_of<T: Copy>(&mut self, all: &[T], name: impl Fn(T) -> &'static str) -> Option<T> {
        let text = self.string()?;
        all.iter().copied().find(|&one| name(one) == text)
    }

    fn dtype(&mut self) -> Option<DataType> {
        self.one_of(&DataType::ALL, DataType::name)
    }

    fn integers<T: Native + std::str::FromStr>(&mut self) -> Option<Values> {
        Some(T::into_values(self.items(|r| r.row(Self::integer))?))
    }

    fn values(&mut self, dtype: DataType) -> Option<Values> {
        match dtype {
            DataType::Null => Some(Values::Null(self.items(|r| r.expect("null"))?.len())),
            DataType::Boolean => Some(Values::Boolean(self.items(|r| r.row(Self::boolean))?)),
            DataType::String => Some(Values::String(self.items(|r| r.row(Self::string))?)),
            DataType::UInt8 => self.integers::<u8>(),
            DataType::UInt16 => self.integers::<u16>(),
            DataType::UInt32 => self.integers::<u32>(),
            DataType::UInt64 => self.integers::<u64>(),
            DataType::Int8 => self.integers::<i8>(),
            DataType::Int16 => self.integers::<i16>(),
            DataType::Int32 => self.integers::<i32>(),
            DataType::Int64 => self.integers::<i64>(),
        }
    }

    /// `{"dtype":type,"name":string,"values":list}`
    pub fn column(&mut self) -> Option<Column> {
        self.expect("{\"dtype\":")?;
        let dtype = self.dtype()?;
        self.expect(",\"name\":")?;
        let name = self.string()?;
        self.expect(",\"values\":[")?;
        let values = self.values(dtype)?;
        self.expect("}")?;
        Some(Column { name, values })
    }

    /// `{"columns":list,"rewrites":n,"trees":list}`
    pub fn report(&mut self) -> Option<(Vec<Column>, u64, Vec<Expr>)> {
        self.expect("{\"columns\":[")?;
        let columns = self.items(Self::column)?;
        self.expect(",\"rewrites\":")?;
        let rewrites = self.integer()?;
        self.expect(",\"trees\":[")?;
        let trees = self.items(|r| r.expr(DEPTH))?;
        self.expect("}")?;
        self.end()?;
        Some((columns, rewrites, trees))
    }

    /// `{"error":kind}` or `{"error":kind,"name":string}`
    pub fn fault(&mut self) -> Option<(String, Option<String>)> {
        self.expect("{\"error\":")?;
        let kind = self.string()?;
        let name = if self.has(",\"name\":") {
            Some(self.string()?)
        } else {
            None
        };
        self.expect("}")?;
        self.end()?;
        Some((kind, name))
    }

    /// An expression that nests at most so deep.
    fn expr(&mut self, depth: usize) -> Option<Expr> {
        let depth = depth.checked_sub(1)?;
        self.expect("{")?;
        let name = self.string()?;
        self.expect(":")?;
        let expr = match name.as_str() {
            "col" => Expr::leaf(Node::Column(self.string()?)),
            "lit" => Expr::leaf(Node::Literal(self.literal()?)),
            "series" => Expr::leaf(Node::Literal(Literal::Series(self.column()?))),
            _ => {
                self.expect("[")?;
                self.list_form(&name, depth)?
            }
        };
        self.expect("}")?;
        Some(expr)
    }

    /// An expression of inputs, up to the end of its list.
    fn list_form(&mut self, name: &str, depth: usize) -> Option<Expr> {
        if name == "fn" {
            let function = self.one_of(&Function::ALL, Function::name)?;
            let inputs = match self.has(",") {
                true => self.items(|r| r.expr(depth))?,
                false => self.expect("]").map(|()| Vec::new())?,
            };
            return Some(Expr::of(Node::Function(function), inputs));
        }
        let mut inputs = vec![self.expr(depth)?];
        self.expect(",")?;
        let node = match name {
            "alias" => Node::Alias(self.string()?),
            "binary" => {
                let operator = self.one_of(&Operator::ALL, Operator::name)?;
                self.expect(",")?;
                inputs.push(self.expr(depth)?);
                Node::Binary(operator)
            }
            "cast" => {
                let dtype = self.dtype()?;
                self.expect(",")?;
                Node::Cast(dtype, self.one_of(&CastOptions::ALL, CastOptions::name)?)
            }
            "when" => {
                inputs.push(self.expr(depth)?);
                self.expect(",")?;
                inputs.push(self.expr(depth)?);
                Node::When
            }
            _ => return None,
        };
        self.expect("]")?;
        Some(Expr::of(node, inputs))
    }

    /// null, a Boolean, a string, an integer, or an integer with its type.
    fn literal(&mut self) -> Option<Literal> {
        if self.has("null") {
            return Some(Literal::Null);
        }
        if let Some(truth) = self.boolean() {
            return Some(Literal::Boolean(truth));
        }
        if self.rest.starts_with('"') {
            return Some(Literal::String(self.string()?));
        }
        if !self.has("{\"dtype\":") {
            return Some(Literal::Integer(self.integer()?));
        }
        let dtype = self.string()?;
        self.expect(",\"value\":")?;
        let literal = self.typed_literal(&dtype)?;
        self.expect("}")?;
        Some(literal)
    }

    fn typed_literal(&mut self, dtype: &str) -> Option<Literal> {
        match dtype {
            "Int" => Some(Literal::Integer(self.literal_integer()?)),
            "UInt8" => Some(Literal::UInt8(self.literal_integer()?)),
            "UInt16" => Some(Literal::UInt16(self.literal_integer()?)),
            "UInt32" => Some(Literal::UInt32(self.literal_integer()?)),
            "UInt64" => Some(Literal::UInt64(self.literal_integer()?)),
            "Int8" => Some(Literal::Int8(self.literal_integer()?)),
            "Int16" => Some(Literal::Int16(self.literal_integer()?)),
            "Int32" => Some(Literal::Int32(self.literal_integer()?)),
            "Int64" => Some(Literal::Int64(self.literal_integer()?)),
            _ => None,
        }
    }

    /// A tree alone.
    pub fn tree(&mut self) -> Option<Expr> {
        let expr = self.expr(DEPTH)?;
        self.end()?;
        Some(expr)
    }
}
