//! Event labels: values in chunks, and texts.

use super::damaged;
use crate::answers::labels::{UNKNOWN, value};
use crate::answers::windows1252::unit_of;
use crate::random::Random;
use crate::utf16;

/// Units at the borders of the table: those of bytes beside each other, their neighbours, surrogates.
pub const BORDER_UNITS: [u16; 20] = [
    0x0000, 0x0041, 0x007F, 0x0080, 0x0081, 0x0082, 0x009D, 0x009F, 0x00A0, 0x00FF, 0x0100, 0x0152,
    0x0178, 0x0192, 0x20AC, 0x20AD, 0x2122, 0xD83D, 0xDE00, 0xFFFF,
];

/// A value of so many characters in chunks; often damaged.
pub fn random_value(random: &mut Random, count: usize) -> Vec<u8> {
    let characters = random.bytes(count);
    let sizes = random_sizes(random, count);
    let total = random_total(random, count);
    let value = value(total, &in_chunks(&characters, &sizes));
    if random.one_in(3) { damaged(random, &value) } else { value }
}

/// Mostly the sum or unknown; at times beside the sum, or any number.
fn random_total(random: &mut Random, sum: usize) -> u64 {
    let sum = sum as u64;
    match random.below(16) {
        0 => sum.wrapping_sub(1),
        1 => sum + 1,
        2 => random.next(),
        3 => u64::from(random.number()),
        4..8 => UNKNOWN,
        _ => sum,
    }
}

/// Sizes of chunks that so many bytes are cut into: one, a few, or many small ones.
pub fn random_sizes(random: &mut Random, count: usize) -> Vec<usize> {
    let most = random.pick(&[count.max(1), count / 2 + 1, 300, 5, 1]);
    let (mut sizes, mut left) = (Vec::new(), count);
    while left > 0 {
        let size = random.within(1, most.min(left));
        sizes.push(size);
        left -= size;
    }
    sizes
}

/// The bytes cut into chunks of these sizes, whose sum is theirs.
pub fn in_chunks<'a>(mut bytes: &'a [u8], sizes: &[usize]) -> Vec<&'a [u8]> {
    let mut chunks = Vec::new();
    for size in sizes {
        let (chunk, rest) = bytes.split_at(*size);
        chunks.push(chunk);
        bytes = rest;
    }
    chunks
}

/// A text of so many units that mostly have bytes; at times with one that has none, or odd.
pub fn random_text(random: &mut Random, count: usize) -> Vec<u8> {
    let mut units: Vec<u16> = (0..count).map(|_| unit_of(random.byte())).collect();
    if random.one_in(4) && !units.is_empty() {
        let place = random.below(units.len());
        units[place] = match random.below(3) {
            0 => units[place].wrapping_add(random.pick(&[1, 0xFFFF, 0x100])),
            1 => random.pick(&BORDER_UNITS),
            _ => random.next() as u16,
        };
    }
    let mut text = utf16::bytes(&units);
    if random.one_in(12) {
        text.push(random.byte());
    }
    text
}
