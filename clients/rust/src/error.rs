//! Why there is no report.

use crate::read::Reader;
use std::{error, fmt};

/// Why there is no report.
///
/// The first seven are faults of an expression, of itself or on the columns of its document: the
/// program ends with 1 and writes them. For the others nothing is written.
#[derive(Clone, Debug, PartialEq, Eq, Hash)]
#[non_exhaustive]
pub enum Error {
    /// The document has no column of this name.
    ColumnNotFound(String),
    /// Two columns of the answer have this name.
    Duplicate(String),
    /// An expression for which there is no rule: types that an operator does not take, a number that
    /// fits no type, a mask that is not Boolean.
    InvalidOperation,
    /// Lengths that do not broadcast.
    ShapeMismatch,
    /// A strict cast of a value that its target lacks.
    InvalidCast,
    /// A column of 2^32 rows or more.
    TooLong,
    /// A fault of another kind, by its line.
    OtherFault(String),
    /// The bytes are no document.
    NoDocument,
    /// There is no memory for the answer.
    OutOfMemory,
    /// The document has more than [`limit`](crate::limit) bytes.
    LongDocument,
    /// The library answers with a status that this crate does not know.
    UnknownStatus(u8),
    /// The library answers with a report that this crate does not read.
    UnknownReport,
}

impl Error {
    /// The fault whose line this is, as `{"error":"ColumnNotFound","name":"b"}`: for a caller of
    /// [`select_into`](crate::select_into), whose buffer has the line.
    ///
    /// ```
    /// let line = b"{\"error\":\"ColumnNotFound\",\"name\":\"b\"}\n";
    /// assert_eq!(px::Error::from_line(line), px::Error::ColumnNotFound("b".to_string()));
    /// ```
    #[must_use]
    pub fn from_line(line: &[u8]) -> Error {
        let text = String::from_utf8_lossy(line);
        let other = || Error::OtherFault(text.trim_end().to_string());
        let Some((kind, name)) = Reader::new(&text).fault() else {
            return other();
        };
        match (kind.as_str(), name) {
            ("ColumnNotFound", Some(name)) => Error::ColumnNotFound(name),
            ("Duplicate", Some(name)) => Error::Duplicate(name),
            ("InvalidOperation", None) => Error::InvalidOperation,
            ("ShapeMismatch", None) => Error::ShapeMismatch,
            ("InvalidCast", None) => Error::InvalidCast,
            ("TooLong", None) => Error::TooLong,
            _ => other(),
        }
    }
}

impl fmt::Display for Error {
    fn fmt(&self, f: &mut fmt::Formatter<'_>) -> fmt::Result {
        match self {
            Error::ColumnNotFound(name) => write!(f, "no column is named {name:?}"),
            Error::Duplicate(name) => write!(f, "two columns are named {name:?}"),
            Error::InvalidOperation => f.write_str("an expression for which there is no rule"),
            Error::ShapeMismatch => f.write_str("lengths that do not broadcast"),
            Error::InvalidCast => f.write_str("a strict cast of a value that its target lacks"),
            Error::TooLong => f.write_str("a column of 2^32 rows or more"),
            Error::OtherFault(line) => write!(f, "a fault: {line}"),
            Error::NoDocument => f.write_str("the bytes are no document"),
            Error::OutOfMemory => f.write_str("out of memory"),
            Error::LongDocument => f.write_str("a document of more than 64 MiB"),
            Error::UnknownStatus(status) => write!(f, "the library answers with status {status}"),
            Error::UnknownReport => f.write_str("the library answers with another report"),
        }
    }
}

impl error::Error for Error {}
