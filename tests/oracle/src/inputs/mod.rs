//! Inputs by seed: good ones of every kind, and damaged copies of them.

pub mod capture;
pub mod header;
pub mod labels;
pub mod login;
pub mod misfit;
pub mod request;
pub mod response;
pub mod script;
pub mod text;

use crate::random::Random;

/// A copy with one to three bytes changed, added or taken away, or with its end cut off.
pub fn damaged(random: &mut Random, good: &[u8]) -> Vec<u8> {
    let mut bytes = good.to_vec();
    for _ in 0..random.within(1, 3) {
        let place = random.within(0, bytes.len());
        match random.below(4) {
            0 => bytes.truncate(place),
            1 => bytes.insert(place, random.byte()),
            2 if place < bytes.len() => {
                bytes.remove(place);
            }
            _ if place < bytes.len() => {
                let near = bytes[place].wrapping_add(random.pick(&[1, 2, 0x80, 0xFE, 0xFF]));
                bytes[place] = if random.one_in(2) { near } else { random.byte() };
            }
            _ => {}
        }
    }
    bytes
}
