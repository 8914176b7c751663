//! The functions of `libpx.a`. Their declarations are those of `../c/px.h`; nothing compares them
//! with the library but the tests.

/// How a call ended, and how long the reply is.
#[repr(C)]
pub struct Answer {
    pub length: usize,
    pub status: u8,
}

/// The statuses that have a meaning of their own for this crate.
pub const REPORT: u8 = 0;
pub const FAULT: u8 = 1;
pub const NO_DOCUMENT: u8 = 2;
pub const OUT_OF_MEMORY: u8 = 3;
pub const SHORT_BUFFER: u8 = 5;
pub const LONG_DOCUMENT: u8 = 7;

unsafe extern "C" {
    fn px_answer(
        context: u32,
        document: *const u8,
        document_length: usize,
        buffer: *mut u8,
        buffer_length: usize,
    ) -> Answer;
    safe fn px_limit() -> usize;
    safe fn px_version() -> u32;
    safe fn px_room(document_length: usize) -> usize;
}

/// The answer to the document, whose reply is put at the front of the buffer where it fits.
pub fn answer(context: u32, document: &[u8], buffer: &mut [u8]) -> Answer {
    // SAFETY: the function requires nothing but what slices are: each pointer is not null and goes
    // with its length, the document may be read, the buffer is initialized and borrowed alone, so
    // that the two do not overlap, and neither is kept after the call.
    unsafe {
        px_answer(
            context,
            document.as_ptr(),
            document.len(),
            buffer.as_mut_ptr(),
            buffer.len(),
        )
    }
}

pub fn limit() -> usize {
    px_limit()
}

pub fn version() -> u32 {
    px_version()
}

pub fn room(document_length: usize) -> usize {
    px_room(document_length)
}
