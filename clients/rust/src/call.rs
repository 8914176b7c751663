//! Calls over bytes.

use crate::error::Error;
use crate::ffi;
use std::alloc::{Layout, alloc_zeroed};

/// What the expressions of a document are for.
#[derive(Clone, Copy, Debug, PartialEq, Eq, Hash)]
pub enum Context {
    /// Each expression is a column of the answer, with its name.
    Select,
    /// Each expression is a Boolean mask, and masks have no name.
    Filter,
}

impl Context {
    fn code(self) -> u32 {
        match self {
            Context::Select => 0,
            Context::Filter => 1,
        }
    }
}

/// How a call that writes into the caller's buffer ended. The number is the reply's length in bytes.
#[derive(Clone, Copy, Debug, PartialEq, Eq, Hash)]
pub enum Written {
    /// The report stands at the front of the buffer.
    Report(usize),
    /// An expression has a fault, whose line stands at the front of the buffer
    /// ([`Error::from_line`]).
    Fault(usize),
    /// The reply is longer than the buffer, which is as it was.
    Short(usize),
}

/// The greatest length of a document: 64 MiB.
#[must_use]
pub fn limit() -> usize {
    ffi::limit()
}

/// The version of px, as 0xMMmmpp: major, minor, patch.
#[must_use]
pub fn version() -> u32 {
    ffi::version()
}

/// The length of a buffer that holds the reply to nearly every document of so many bytes. It is an
/// estimate: be ready for [`Written::Short`].
#[must_use]
pub fn room(document_length: usize) -> usize {
    ffi::room(document_length)
}

/// The report of the columns that the document's expressions mean: one line of JSON and a line feed.
///
/// ```
/// let document = br#"{"columns":[],"exprs":[{"lit":{"dtype":"Int8","value":5}}]}"#;
/// let report = px::select(document)?;
/// assert!(report.starts_with(br#"{"columns":[{"dtype":"Int8","name":"literal","values":[5]}]"#));
///
/// let document = br#"{"columns":[],"exprs":[{"col":"b"}]}"#;
/// assert_eq!(px::select(document), Err(px::Error::ColumnNotFound("b".to_string())));
/// # Ok::<(), px::Error>(())
/// ```
///
/// # Errors
///
/// The first fault of an expression; [`Error::NoDocument`], [`Error::LongDocument`] and
/// [`Error::OutOfMemory`].
pub fn select(document: &[u8]) -> Result<Vec<u8>, Error> {
    answer(Context::Select, document)
}

/// The report of the masks that the document's expressions mean: one line of JSON and a line feed.
///
/// # Errors
///
/// Those of [`select`]; a mask that is not Boolean is an [`Error::InvalidOperation`].
pub fn filter(document: &[u8]) -> Result<Vec<u8>, Error> {
    answer(Context::Filter, document)
}

/// As [`select`], into the caller's buffer. What stands behind the reply is as it was.
///
/// ```
/// let document = br#"{"columns":[],"exprs":[]}"#;
/// let mut buffer = [0; 64];
/// assert_eq!(px::select_into(document, &mut buffer[..2])?, px::Written::Short(39));
/// assert_eq!(px::select_into(document, &mut buffer)?, px::Written::Report(39));
/// assert_eq!(&buffer[..39], b"{\"columns\":[],\"rewrites\":0,\"trees\":[]}\n".as_slice());
/// # Ok::<(), px::Error>(())
/// ```
///
/// # Errors
///
/// [`Error::NoDocument`], [`Error::LongDocument`] and [`Error::OutOfMemory`]; the buffer is as it was.
pub fn select_into(document: &[u8], buffer: &mut [u8]) -> Result<Written, Error> {
    answer_into(Context::Select, document, buffer)
}

/// As [`filter`], into the caller's buffer. What stands behind the reply is as it was.
///
/// # Errors
///
/// Those of [`select_into`].
pub fn filter_into(document: &[u8], buffer: &mut [u8]) -> Result<Written, Error> {
    answer_into(Context::Filter, document, buffer)
}

pub(crate) fn answer_into(
    context: Context,
    document: &[u8],
    buffer: &mut [u8],
) -> Result<Written, Error> {
    let answer = ffi::answer(context.code(), document, buffer);
    match answer.status {
        ffi::REPORT => Ok(Written::Report(answer.length)),
        ffi::FAULT => Ok(Written::Fault(answer.length)),
        ffi::SHORT_BUFFER => Ok(Written::Short(answer.length)),
        ffi::NO_DOCUMENT => Err(Error::NoDocument),
        ffi::OUT_OF_MEMORY => Err(Error::OutOfMemory),
        ffi::LONG_DOCUMENT => Err(Error::LongDocument),
        status => Err(Error::UnknownStatus(status)),
    }
}

pub(crate) fn answer(context: Context, document: &[u8]) -> Result<Vec<u8>, Error> {
    if document.len() > limit() {
        return Err(Error::LongDocument);
    }
    let mut buffer = zeros(room(document.len()))?;
    loop {
        match answer_into(context, document, &mut buffer)? {
            Written::Report(length) => {
                buffer.truncate(length);
                buffer.shrink_to_fit();
                return Ok(buffer);
            }
            Written::Fault(length) => return Err(Error::from_line(&buffer[..length])),
            Written::Short(length) => buffer = zeros(length)?,
        }
    }
}

/// So many zeros. Pages of a long buffer that nobody touches take no memory.
fn zeros(length: usize) -> Result<Vec<u8>, Error> {
    if length == 0 {
        return Ok(Vec::new());
    }
    let layout = Layout::array::<u8>(length).map_err(|_| Error::OutOfMemory)?;
    // SAFETY: the layout has at least one byte.
    let start = unsafe { alloc_zeroed(layout) };
    if start.is_null() {
        return Err(Error::OutOfMemory);
    }
    // SAFETY: the global allocator gave this block of `length` bytes of alignment 1, which are all
    // initialized, and nobody else has it.
    Ok(unsafe { Vec::from_raw_parts(start, length, length) })
}

#[cfg(test)]
mod tests {
    use super::*;

    #[test]
    fn a_buffer_that_no_memory_holds_is_out_of_memory() {
        assert_eq!(zeros(usize::MAX), Err(Error::OutOfMemory));
        assert_eq!(zeros(isize::MAX as usize), Err(Error::OutOfMemory));
        assert_eq!(zeros(0), Ok(Vec::new()));
        assert_eq!(zeros(3), Ok(vec![0; 3]));
    }
}
