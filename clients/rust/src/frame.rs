//! Columns and expressions, and their report.

use crate::call::{Context, answer};
use crate::column::Column;
use crate::error::Error;
use crate::expr::Expr;
use crate::read::Reader;
use crate::write::write_values;

/// Columns with distinct names and one height, over which expressions are answered.
///
/// ```
/// use px::{Column, Frame, col};
///
/// let frame = Frame::new([
///     Column::new("qty", [Some(2), None, Some(5), Some(1)]),
///     Column::new("price", [1000_i64, 250, 990, 4000]),
///     Column::new("paid", [Some(true), Some(false), None, Some(false)]),
/// ]);
///
/// let report = frame.select([(col("qty") * col("price")).alias("total")])?;
/// let total = report.column("total").and_then(Column::rows::<i64>);
/// assert_eq!(total, Some([Some(2000), None, Some(4950), Some(4000)].as_slice()));
///
/// let report = frame.filter([!(col("paid") | col("price").lt_eq(500))])?;
/// assert_eq!(report.trees[0].to_string(), r#"(col("paid").not() & (col("price") > 500))"#);
/// assert_eq!(report.rewrites, 2);
/// # Ok::<(), px::Error>(())
/// ```
#[derive(Clone, Debug, Default, PartialEq, Eq, Hash)]
pub struct Frame {
    /// The columns. Where names repeat or heights differ, a call answers [`Error::NoDocument`].
    pub columns: Vec<Column>,
}

impl Frame {
    /// The frame of these columns.
    pub fn new(columns: impl IntoIterator<Item = Column>) -> Frame {
        Frame {
            columns: columns.into_iter().collect(),
        }
    }

    /// The document that asks for the expressions.
    #[must_use]
    pub fn document(&self, exprs: &[Expr]) -> Vec<u8> {
        let mut out = String::from("{\"columns\":[");
        write_values(&mut out, &self.columns, |out, column| column.write(out));
        out.push_str("],\"exprs\":[");
        write_values(&mut out, exprs, |out, expr| expr.write(out));
        out.push_str("]}");
        out.into_bytes()
    }

    /// The columns that the expressions mean.
    ///
    /// # Errors
    ///
    /// Those of [`select`](crate::select).
    pub fn select(&self, exprs: impl IntoIterator<Item = Expr>) -> Result<Report, Error> {
        self.answer(Context::Select, exprs)
    }

    /// The masks that the expressions mean. The frame's rows are not filtered.
    ///
    /// # Errors
    ///
    /// Those of [`filter`](crate::filter).
    pub fn filter(&self, masks: impl IntoIterator<Item = Expr>) -> Result<Report, Error> {
        self.answer(Context::Filter, masks)
    }

    fn answer(
        &self,
        context: Context,
        exprs: impl IntoIterator<Item = Expr>,
    ) -> Result<Report, Error> {
        let exprs: Vec<Expr> = exprs.into_iter().collect();
        let document = self.document(&exprs);
        Report::read(&answer(context, &document)?).ok_or(Error::UnknownReport)
    }
}

/// What a document was answered with.
#[derive(Clone, Debug, PartialEq, Eq)]
pub struct Report {
    /// The columns that the checked expressions mean, or the masks, whose names are empty.
    pub columns: Vec<Column>,
    /// The number of rewrites that were made.
    pub rewrites: u64,
    /// The rewritten expressions: on every frame of the same names and types each means what the
    /// checked expression in its place means, nulls and failures included.
    pub trees: Vec<Expr>,
}

impl Report {
    /// The report that a call of [`select`](crate::select) or [`filter`](crate::filter) answered, or
    /// None for other bytes.
    #[must_use]
    pub fn read(line: &[u8]) -> Option<Report> {
        let text = std::str::from_utf8(line).ok()?;
        let (columns, rewrites, trees) = Reader::new(text).report()?;
        Some(Report {
            columns,
            rewrites,
            trees,
        })
    }

    /// The column of this name.
    #[must_use]
    pub fn column(&self, name: &str) -> Option<&Column> {
        self.columns.iter().find(|column| column.name == name)
    }
}
