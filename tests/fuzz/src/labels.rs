//! Event labels: an input is a number of bytes to lend, and what a label's value and text are made of. The
//! value is read and its text written, the text is written and its value read, each held against the oracle's
//! second reader and writer.

use crate::answers::labels::{UNKNOWN, value};
use crate::compact::Draw;
use crate::compare::Check;
use crate::groups::labels;
use crate::inputs::labels::{random_text, random_value};
use crate::random::Random;
use crate::wall::Wall;

/// Bits of the first byte: the value's chunks come as strings in the compact form, and not the value and the
/// text as they are; a byte follows the value. The two bits between them choose the total.
const CHUNKS: u8 = 0x01;
const FOLLOWED: u8 = 0x08;
/// More bytes to lend than any label needs.
const MOST_LENT: usize = 140_000;

pub fn compare_one(input: &[u8], walls: &mut [Wall; 3]) -> Vec<Check> {
    let mut draw = Draw::new(input);
    let form = draw.byte();
    let lent = draw.value() as usize % MOST_LENT;
    let [one, two, _] = walls;
    if form & CHUNKS == 0 {
        let bytes = draw.rest();
        return labels::compare_one(one.lend(bytes), two.lend(bytes), lent);
    }
    let given = if form >> 1 & 3 == 3 { draw.value() } else { 0 };
    let chunks = chunks(&mut draw);
    let text = chunks.concat();
    let sum = text.len() as u64;
    let total = [sum, UNKNOWN, sum.wrapping_sub(1), given][usize::from(form >> 1 & 3)];
    let mut value = value(total, &chunks.iter().map(Vec::as_slice).collect::<Vec<_>>());
    value.extend((form & FOLLOWED != 0).then_some(0));
    labels::compare_one(one.lend(&value), two.lend(&text), lent)
}

/// Strings until the input ends; one of no bytes ends the chunks of a value.
fn chunks(draw: &mut Draw) -> Vec<Vec<u8>> {
    let mut chunks = Vec::new();
    while !draw.ended() {
        chunks.push(draw.bytes());
    }
    chunks
}

/// Another input: a value or a text of the oracle's, as it is.
pub fn another(random: &mut Random) -> Vec<u8> {
    let count = random.within(0, 30);
    let label = if random.one_in(2) { random_value } else { random_text };
    [&[0x00, random.below(80) as u8], &label(random, count)[..]].concat()
}
