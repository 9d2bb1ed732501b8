//! Texts as the Rust's strings count them.

use super::response::argument;
use crate::refusal::Answer;

/// Units, characters, length in UTF-8, and whether a surrogate pair stands in the text.
pub const COUNTS: usize = 4;

pub fn counts(bytes: &[u8]) -> Answer<[u64; COUNTS]> {
    let text = argument(bytes)?;
    let pair = text.chars().any(|character| character.len_utf16() == 2);
    let counts = [text.encode_utf16().count(), text.chars().count(), text.len(), pair.into()];
    Ok(counts.map(|count| count as u64))
}

/// Whether the Rust's trimming removes the unit.
pub fn is_whitespace(unit: u16) -> bool {
    char::from_u32(unit.into()).is_some_and(char::is_whitespace)
}
