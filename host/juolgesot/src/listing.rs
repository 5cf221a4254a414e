//! The listing: requested positions in, a line for each lane and round out.

use crate::ffi;
use crate::refusal::Refusal;
use plan::Edition;

/// Words of working room for a listing.
pub const LIST_ROOM: usize = 16384;
/// Bytes that no listing passes: 8192 lines of at most 29 bytes, and the first line (crates/listing/proofs/LengthLaws.antt).
pub const LIST_TEXT: usize = 8192 * 29 + 10;

/// What the listing program prints for these records, refusals included. (The program itself is of the full edition.)
///
#[doc = "```"]
#[doc = include_str!("../examples/list.rs")]
#[doc = "```"]
pub fn list(records: &[u8], edition: Edition) -> Result<Vec<u8>, Refusal> {
    let mut room = vec![0; LIST_ROOM];
    let mut text = vec![0; LIST_TEXT];
    let length = list_into(records, &mut room, &mut text, edition)?;
    text.truncate(length);
    Ok(text)
}

/// The same over lent slices. Gives the number of bytes written; refused only by 14 and 32.
pub fn list_into(
    records: &[u8],
    room: &mut [u32],
    out: &mut [u8],
    edition: Edition,
) -> Result<usize, Refusal> {
    Refusal::check(ffi::list(records, room, out, edition.number())).map(|length| length as usize)
}
