//! Captures of requests.

use super::damaged;
use crate::random::Random;
use crate::script::records::{REQUEST_BODY, Record, written};

/// Records of a capture, at times one of another kind; often damaged.
pub fn random_capture(random: &mut Random) -> Vec<u8> {
    let mut records = random_records(random, 20);
    if !records.is_empty() && random.one_in(4) {
        let place = random.below(records.len());
        records[place].kind = random.below(0x40) as u16;
    }
    let bytes = written(&records);
    if random.one_in(3) { damaged(random, &bytes) } else { bytes }
}

pub fn random_records(random: &mut Random, most: usize) -> Vec<Record> {
    let count = random.within(0, most);
    (0..count).map(|_| Record::new(REQUEST_BODY, random_body(random))).collect()
}

/// A body of few bytes, mostly with a headers length around 4.
pub fn random_body(random: &mut Random) -> Vec<u8> {
    let length = random.within(0, 12);
    let mut body = random.bytes(length);
    if length >= 4 && !random.one_in(4) {
        body[..4].copy_from_slice(&(random.below(7) as u32).to_le_bytes());
    }
    body
}
