//! px in process: column expressions that are checked against a schema, rewritten to a normal form,
//! and evaluated over columns with nulls and wrapping integers, by code that is proved.
//!
//! [`Frame::select`] takes columns of Rust slices and expressions as a Polars user writes them:
//!
//! ```
//! use px::{Column, Error, Frame, col, lit};
//!
//! let frame = Frame::new([Column::new("a", [Some(1), None, Some(3)])]);
//! let report = frame.select([col("a") + lit(5)])?;
//! assert_eq!(report.columns, [Column::new("a", [Some(6), None, Some(8)])]);
//!
//! let fault = frame.select([col("b").gt(5)]);
//! assert_eq!(fault, Err(Error::ColumnNotFound("b".to_string())));
//! # Ok::<(), Error>(())
//! ```
//!
//! Below it, [`select`] and [`filter`] take a document's bytes and answer a report's, and
//! [`select_into`] and [`filter_into`] write the reply into the caller's buffer. The README of the
//! repository says what a document and a report are, and what is proved of them.
//!
//! Calls keep nothing and may run in several threads at once. This crate has no dependencies; it
//! links `libpx.a`, from the folder that `PX_LIB_DIR` names, else from `../lib`.

mod build;
mod call;
mod column;
mod error;
mod expr;
mod ffi;
mod frame;
mod literal;
mod read;
mod write;

pub use build::{Then, When, when};
pub use call::{Context, Written, filter, filter_into, limit, room, select, select_into, version};
pub use column::{Column, DataType, Native, Row, Values};
pub use error::Error;
pub use expr::{CastOptions, Expr, Function, Node, Operator, col, lit, typed_lit};
pub use frame::{Frame, Report};
pub use literal::{Literal, NULL, Null, TypedLiteral};
