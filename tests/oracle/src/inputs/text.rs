//! Texts: well-formed, spoiled and odd ones.

use crate::random::Random;
use crate::utf16;

/// A text of at most `most` units, at times spoiled or with an odd byte more.
pub fn random_bytes(random: &mut Random, most: usize) -> Vec<u8> {
    let count = random.within(0, most);
    let text = utf16::random_text(random, count);
    let mut bytes = match random.below(3) {
        0 => utf16::bytes(&utf16::spoiled(random, &text)),
        _ => utf16::bytes(&text),
    };
    if random.one_in(6) {
        bytes.push(random.byte());
    }
    bytes
}
