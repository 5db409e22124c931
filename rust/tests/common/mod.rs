//! What the tests share: random cases with their seed, the call with guards around the answer area,
//! and a market as the tests see it. Nothing here is taken from the library.
//!
//! CLEARING_SEED is the first seed of every random test. The number of cases is CLEARING_SMALL,
//! CLEARING_FILES, CLEARING_LARGE and CLEARING_RUNS.

mod random;
mod sheet;

pub use random::{cases, Random};
pub use sheet::{offer_record, upward, Link, Offer, Sheet, Span, FILE_LIMIT};

use clearing::clear;

const GUARD: usize = 32;

/// Clears `file` into an area of `room` bytes. Gives the bytes written, or the refusal's number and
/// place. Fails where the file, a byte around the area, or a byte of it that should stay has changed.
pub fn cleared(file: &[u8], room: usize, random: &mut Random) -> Result<Vec<u8>, (u64, u64)> {
    let before = random.bytes(GUARD + room + GUARD);
    let mut around = before.clone();
    let lent = file.to_vec();
    let result = clear(&lent, &mut around[GUARD..GUARD + room]);
    assert!(lent == file, "the file was changed");
    let written = result.unwrap_or(0);
    assert!(written <= room, "{written} bytes in an area of {room}");
    let end = GUARD + written;
    assert_eq!(around[..GUARD], before[..GUARD], "before the area");
    assert_eq!(around[end..], before[end..], "after {written} bytes");
    match result {
        Ok(_) => Ok(around[GUARD..end].to_vec()),
        Err(refusal) => Err((refusal.number(), refusal.place())),
    }
}
