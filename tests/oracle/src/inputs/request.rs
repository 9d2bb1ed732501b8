//! Request bodies: batches, transaction requests, descriptor blocks, token messages.

use super::damaged;
use crate::random::Random;
use crate::utf16;

/// All bodies of a length whose bytes are 00 to 05 or FF.
pub fn small_bodies(length: u32) -> impl Iterator<Item = Vec<u8>> {
    const BYTES: [u8; 7] = [0, 1, 2, 3, 4, 5, 0xFF];
    let body =
        move |number| (0..length).map(|place| BYTES[number / 7usize.pow(place) % 7]).collect();
    (0..7usize.pow(length)).map(body)
}

/// A batch with headers, blanks at both ends and at times an odd last byte; often damaged.
pub fn random_batch(random: &mut Random) -> Vec<u8> {
    let mut body = random_headers(random);
    for most in [4, 12, 4] {
        let count = random.within(0, most);
        let text =
            if most == 4 { blanks(random, count) } else { utf16::random_text(random, count) };
        let spoil = random.one_in(16);
        let text = if spoil { utf16::spoiled(random, &text) } else { text };
        body.extend(utf16::bytes(&text));
    }
    if random.one_in(4) {
        body.push(random.byte());
    }
    maybe_damaged(random, body)
}

fn blanks(random: &mut Random, count: usize) -> Vec<u16> {
    (0..count).map(|_| random.pick(&utf16::BLANK_UNITS)).collect()
}

/// Headers and a request type, with or without bytes after it; often damaged.
pub fn random_transaction(random: &mut Random) -> Vec<u8> {
    let mut body = random_headers(random);
    let count = random.within(0, 6);
    body.extend(random.bytes(count));
    maybe_damaged(random, body)
}

/// A block of headers and bytes after it; often damaged.
pub fn random_descriptor(random: &mut Random) -> Vec<u8> {
    let mut body = random_headers(random);
    let count = random.within(0, 8);
    body.extend(random.bytes(count));
    maybe_damaged(random, body)
}

/// A token message with right lengths, or lengths nearly right.
pub fn random_token_message(random: &mut Random) -> Vec<u8> {
    let count = random.within(0, 40);
    let token = random.bytes(count);
    let slip = random.pick(&[0, 0, 0, 1, 0xFFFF_FFFF, 4, 0xFFFF_FFFC]);
    let other_slip = random.pick(&[0, 0, 0, 1, 0xFFFF_FFFF, 4, 0xFFFF_FFFC]);
    let mut payload = (4 + count as u32).wrapping_add(slip).to_le_bytes().to_vec();
    payload.extend((count as u32).wrapping_add(other_slip).to_le_bytes());
    payload.extend(token);
    maybe_damaged(random, payload)
}

/// The 4-byte total, mostly right, and none to four headers, type 2 among them.
fn random_headers(random: &mut Random) -> Vec<u8> {
    let mut headers = Vec::new();
    for _ in 0..random.below(5) {
        headers.extend(random_header(random));
    }
    let total = match random.below(8) {
        0 => random.within(0, headers.len() + 8) as u32,
        1 => random.number(),
        _ => 4 + headers.len() as u32,
    };
    [&total.to_le_bytes()[..], &headers].concat()
}

fn random_header(random: &mut Random) -> Vec<u8> {
    let size = random.within(6, 24);
    let told = match random.below(16) {
        0 => random.within(0, 24) as u32,
        1 => random.number(),
        _ => size as u32,
    };
    let mut header = told.to_le_bytes().to_vec();
    header.extend((random.below(4) as u16).to_le_bytes());
    header.extend(random.bytes(size - 6));
    header
}

fn maybe_damaged(random: &mut Random, good: Vec<u8>) -> Vec<u8> {
    if random.one_in(3) { damaged(random, &good) } else { good }
}
