//! "The message."

use crate::text::LONGEST_TEXT;
use crate::{read_stamp, Layout, Partitions, Refusal};

/// "Payload of any length, then clock text, then a two-byte trailer [..]. Message answer: the stamp's encoded count."
pub fn read_message(layout: &Layout, partitions: Partitions, message: &[u8]) -> Result<u64, Refusal> {
    let text = text_of(message)?;
    // A place counts from the text's first byte.
    read_stamp(layout, partitions, text)
}

/// "21 under 2 bytes, 22 L is 0, 23 L above 96 or too far back, all in 17's place": before the tables.
pub(crate) fn text_of(message: &[u8]) -> Result<&[u8], Refusal> {
    if message.len() < 2 {
        return Err(Refusal::new(21));
    }
    let (before, trailer) = message.split_at(message.len() - 2);
    // "high byte first: L, the distance back from the trailer to the start of the text"
    let l = usize::from(u16::from_be_bytes([trailer[0], trailer[1]]));
    // "L is from 1 to 96 and at most the message length less 2."
    if l < 1 {
        return Err(Refusal::new(22));
    }
    if l > LONGEST_TEXT || l > before.len() {
        return Err(Refusal::new(23));
    }
    // "The text is the L bytes just before the trailer."
    Ok(&before[before.len() - l..])
}
