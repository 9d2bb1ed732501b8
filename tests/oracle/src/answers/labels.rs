//! Event labels (document 02, 2026-07), which the Rust does not know: a second reader and writer.

use super::windows1252::{byte_of, unit_of};
use crate::refusal::{Answer, LONG_RESULT, NO_BYTE, ODD_ARGUMENT, VALUE_CUT, VALUE_WRONG};
use crate::utf16;

/// The most characters of a label.
pub const MOST: usize = 65_535;
/// The totals that are no sums: of null, and of chunks whose sum is not told.
pub const NULL: u64 = u64::MAX;
pub const UNKNOWN: u64 = u64::MAX - 1;

/// The text of a value; none where it is null.
pub fn read(value: &[u8]) -> Answer<Option<Vec<u8>>> {
    let Some(characters) = joined(value)? else { return Ok(None) };
    if characters.len() > MOST {
        return Err(LONG_RESULT);
    }
    let units: Vec<u16> = characters.into_iter().map(unit_of).collect();
    Ok(Some(utf16::bytes(&units)))
}

/// The bytes of a value's chunks, one after another; none where it is null.
pub fn joined(value: &[u8]) -> Answer<Option<Vec<u8>>> {
    let (total, mut rest) = value.split_first_chunk().ok_or(VALUE_CUT)?;
    let total = u64::from_le_bytes(*total);
    if total == NULL {
        return ended(None, rest);
    }
    let mut joined = Vec::new();
    loop {
        let (length, after) = rest.split_first_chunk().ok_or(VALUE_CUT)?;
        let length = u32::from_le_bytes(*length) as usize;
        let sum = (joined.len() + length) as u64;
        let fits = if length == 0 { sum == total } else { sum <= total };
        if total != UNKNOWN && !fits {
            return Err(VALUE_WRONG);
        }
        if length == 0 {
            return ended(Some(joined), after);
        }
        let (chunk, after) = after.split_at_checked(length).ok_or(VALUE_CUT)?;
        joined.extend(chunk);
        rest = after;
    }
}

/// What was read, where nothing stands after it.
fn ended<T>(read: T, rest: &[u8]) -> Answer<T> {
    if rest.is_empty() { Ok(read) } else { Err(VALUE_WRONG) }
}

/// The value of a text: its total and one chunk, or none of an empty text.
pub fn write(text: &[u8]) -> Answer<Vec<u8>> {
    if !text.len().is_multiple_of(2) {
        return Err(ODD_ARGUMENT);
    }
    let bytes: Option<Vec<u8>> = utf16::units(text).into_iter().map(byte_of).collect();
    let bytes = bytes.ok_or(NO_BYTE)?;
    if bytes.len() > MOST {
        return Err(LONG_RESULT);
    }
    let chunks: &[&[u8]] = if bytes.is_empty() { &[] } else { &[&bytes] };
    Ok(value(bytes.len() as u64, chunks))
}

/// A total, chunks, and the length that ends them.
pub fn value(total: u64, chunks: &[&[u8]]) -> Vec<u8> {
    let mut value = total.to_le_bytes().to_vec();
    for chunk in chunks {
        value.extend((chunk.len() as u32).to_le_bytes());
        value.extend_from_slice(chunk);
    }
    value.extend([0; 4]);
    value
}
