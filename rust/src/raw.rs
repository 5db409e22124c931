//! The library's entry on bytes, made safe to call. Nothing is asked of the bytes or of their
//! number: the library promises its result for every file and every answer area.

use crate::Refusal;

/// The most bytes that a file has: 31 links and 32 times 64 spans of two records, of 8 bytes each.
pub const FILE_LIMIT: usize = 33_016;

/// The most bytes that an answer has: 16 for each of 32 members.
pub const ANSWER_LIMIT: usize = 512;

/// Bytes of stack that are enough, in a release build, for a thread that only makes a call of [`clear`],
/// or of one with a typed answer, whatever the file. Some 5,000 of them are for the thread's start
/// (measured with Debian 12's C library); a service's thread-local values, and what else the thread
/// does, come on top.
pub const STACK: usize = 64 * 1024;

extern "C" {
    fn clearing_clear(file: *const u8, file_len: usize, answer: *mut u8, answer_len: usize) -> u64;
}

/// Clears the market in `file` and writes its answer from the start of `answer`.
///
/// Gives the number of bytes written, 16 for each member; the bytes after them stay as they were.
/// A refusal changes no byte. [`ANSWER_LIMIT`] bytes are enough for every market.
///
/// A call needs less than [`STACK`] bytes of stack (59,640 were measured, by the example `bench`) and
/// no heap.
///
/// # Panics
///
/// Not with the archive of this version, which is proved to give no number but those of
/// [`Refusal`]'s table. With that of other rules, a number that the table does not have panics.
///
/// ```
/// // One member that offers to stand idle at no price.
/// let file = [2, 1, 0, 0, 0, 0, 0, 0];
/// let mut answer = [7; 20];
/// assert_eq!(clearing::clear(&file, &mut answer), Ok(16));
/// assert_eq!(answer[..8], [3, 1, 0, 0, 0, 0, 0, 0]);
/// assert_eq!(answer[8..16], [5, 0, 0, 0, 0, 0, 0, 0]);
/// assert_eq!(answer[16..], [7; 4]);
/// ```
pub fn clear(file: &[u8], answer: &mut [u8]) -> Result<usize, Refusal> {
    // SAFETY: a slice is lent as its pointer and its length, both are valid for the call, and they
    // do not overlap, since one is borrowed mutably.
    let code =
        unsafe { clearing_clear(file.as_ptr(), file.len(), answer.as_mut_ptr(), answer.len()) };
    match Refusal::of(code) {
        Some(refusal) => Err(refusal),
        None => Ok(code as usize),
    }
}
