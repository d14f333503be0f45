//! The calls of the library (include/pst.h).

use crate::refusal::Refusal;
use std::fmt;
use std::ops::Deref;
use std::os::raw::{c_char, c_int, c_void};
use std::ptr;
use std::slice;

#[repr(C)]
struct RawText {
    at: *const c_char,
    length: usize,
    room: usize,
}

impl RawText {
    const NONE: RawText = RawText {
        at: ptr::null(),
        length: 0,
        room: 0,
    };
}

#[repr(C)]
struct RawAnswer {
    text: RawText,
    line: RawText,
}

extern "C" {
    fn pst_answer(
        words: *const c_char,
        words_length: usize,
        bytes: *const c_void,
        length: usize,
        answer: *mut RawAnswer,
    ) -> c_int;
    fn pst_decode(bytes: *mut c_void, length: usize) -> c_int;
    fn pst_free(answer: *mut RawAnswer);
}

/// Bytes that the library made, and that go back to it when this is dropped.
pub struct Block(RawText);

// The memory is of nobody else.
unsafe impl Send for Block {}
unsafe impl Sync for Block {}

impl Deref for Block {
    type Target = [u8];

    fn deref(&self) -> &[u8] {
        if self.0.length == 0 {
            return &[];
        }
        // The library gave so many bytes there, and they stay until the drop.
        unsafe { slice::from_raw_parts(self.0.at.cast(), self.0.length) }
    }
}

impl Drop for Block {
    fn drop(&mut self) {
        let mut answer = RawAnswer {
            text: std::mem::replace(&mut self.0, RawText::NONE),
            line: RawText::NONE,
        };
        // It came from the library, and is given back this once.
        unsafe { pst_free(&mut answer) }
    }
}

impl fmt::Debug for Block {
    fn fmt(&self, f: &mut fmt::Formatter<'_>) -> fmt::Result {
        write!(f, "{:?}", String::from_utf8_lossy(self))
    }
}

/// What the program answers.
#[derive(Debug)]
pub struct Answer {
    /// The status with which it ends.
    pub status: u8,
    /// What it writes.
    pub text: Block,
    /// What it says on the error output.
    pub line: Block,
}

/// What the program answers to the words of a command line, with `-` in FILE's place, over the bytes of a file. A word has no zero
/// character: what stands behind one is another word.
///
/// ```
/// let answer = pst_verify::answer(&["explain", "4"], b"");
/// assert_eq!(answer.status, 0);
/// assert!(answer.text.starts_with(b"4 Encoded"));
/// ```
pub fn answer<W: AsRef<str>>(words: &[W], bytes: &[u8]) -> Answer {
    let mut ended = Vec::new();
    for word in words {
        ended.extend_from_slice(word.as_ref().as_bytes());
        ended.push(0);
    }
    let mut raw = RawAnswer {
        text: RawText::NONE,
        line: RawText::NONE,
    };
    // Both slices stay as they are while the call runs, since they are borrowed.
    let status = unsafe {
        pst_answer(
            ended.as_ptr().cast(),
            ended.len(),
            bytes.as_ptr().cast(),
            bytes.len(),
            &mut raw,
        )
    };
    Answer {
        status: status as u8,
        text: Block(raw.text),
        line: Block(raw.line),
    }
}

/// Decodes an encoded file where it lies. A file that is not encoded stays as it is; after an error so does any.
pub fn decode(bytes: &mut [u8]) -> Result<(), Refusal> {
    // The slice is borrowed for this call alone.
    match unsafe { pst_decode(bytes.as_mut_ptr().cast(), bytes.len()) } {
        0 => Ok(()),
        _ => Err(Refusal::Memory),
    }
}
