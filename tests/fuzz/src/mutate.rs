//! Mutations that keep an input's shape: of a script record by record with right lengths, of a login
//! with its table of offsets and its features, of a procedure call parameter by parameter, of a reply packet
//! by packet; at times another input of the oracle's. Half of all mutations are libFuzzer's own, on the bytes.

use crate::answers::reply::reply;
use crate::inputs::login::{random_feature, random_login, scattered_login};
use crate::inputs::request::*;
use crate::inputs::script::{damaged, random_record, random_script};
use crate::labels;
use crate::procedures;
use crate::random::Random;
use crate::reading::HEADER;
use crate::script::records::{self, Record};
use crate::steps;

/// libFuzzer's own mutation: the bytes changed, to at most so many.
pub type Own<'a> = &'a mut dyn FnMut(&[u8], usize) -> Vec<u8>;

/// The input of the target changed, to at most so many bytes.
pub fn mutated(target: &str, input: &[u8], most: usize, seed: u64, own: Own) -> Vec<u8> {
    let mut random = Random::new(seed, "mutate");
    let shaped = match target {
        _ if random.one_in(2) => None,
        "script" => Some(script(&mut random, input, most, own)),
        "login" => Some(login(&mut random, input)),
        "request" if random.one_in(8) => Some(request(&mut random)),
        "steps" if random.one_in(8) => another_reply(&mut random),
        "steps" if random.one_in(2) => packets(&mut random, input),
        "rpc" if random.one_in(2) => procedure(&mut random, input),
        "labels" if random.one_in(8) => Some(labels::another(&mut random)),
        _ => None,
    };
    shaped.filter(|bytes| bytes.len() <= most).unwrap_or_else(|| own(input, most))
}

/// The script with one record changed, added, taken away or moved, or a run of them repeated; at times
/// another script.
fn script(random: &mut Random, input: &[u8], most: usize, own: Own) -> Vec<u8> {
    let (mut script, tail) = split(input);
    if script.is_empty() {
        script.push(records::set(&[]));
    }
    let place = random.below(script.len());
    let other = random.within(0, script.len());
    match random.below(20) {
        0 => return records::written(&random_script(random)),
        1 => {
            let good = random_script(random);
            return damaged(random, &good);
        }
        2..=8 => {
            let room = most.saturating_sub(input.len()) + script[place].payload.len();
            script[place].payload = own(&script[place].payload, room.max(1));
        }
        9..=12 => script.insert(other, random_record(random)),
        13 | 14 => {
            script.remove(place);
        }
        15 | 16 => {
            let moved = script.remove(place);
            script.insert(other.min(script.len()), moved);
        }
        _ => {
            let run = place..random.within(place, script.len().min(place + 6));
            let run = script[run].to_vec();
            script.splice(other..other, run);
        }
    }
    [records::written(&script), tail.to_vec()].concat()
}

/// The whole records at the front, and the bytes after them.
fn split(mut bytes: &[u8]) -> (Vec<Record>, &[u8]) {
    let mut script = Vec::new();
    while let Ok((kind, payload, rest)) = records::first(bytes) {
        script.push(Record::new(kind, payload));
        bytes = rest;
    }
    (script, bytes)
}

/// Another request of one of the kinds.
fn request(random: &mut Random) -> Vec<u8> {
    let makers = [random_batch, random_transaction, random_descriptor, random_token_message];
    random.pick(&makers)(random)
}

/// The reply to another script in packets, with no slot forged.
fn another_reply(random: &mut Random) -> Option<Vec<u8>> {
    let reply = reply(&records::written(&random_script(random))).ok()?;
    let packets = cut(random, &reply[HEADER..]).concat();
    Some([&[steps::WHOLE, 0x00], &packets[..]].concat())
}

/// A payload in packets: one, a few, or many of one size.
fn cut(random: &mut Random, payload: &[u8]) -> Vec<Vec<u8>> {
    let few = random.below(4);
    let first: Vec<usize> = (0..few).map(|_| random.within(1, payload.len().max(1))).collect();
    let others = random.one_in(3).then(|| random.within(1, 40));
    steps::cut(payload, &first, others)
}

/// An input of whole packets with its payload cut anew, or with a packet taken away, repeated or moved, or with a
/// byte of a header or the bytes after the packets changed.
fn packets(random: &mut Random, input: &[u8]) -> Option<Vec<u8>> {
    let head = input.get(..2).filter(|head| head[0] & (steps::WHOLE | 0x0E) == steps::WHOLE)?;
    let mut parts = parts(&input[2..]);
    if parts.is_empty() {
        return None;
    }
    let place = random.below(parts.len());
    match random.below(10) {
        0..=3 => {
            let payload: Vec<u8> =
                parts.iter().flat_map(|part| part.get(HEADER..).unwrap_or(&[]).to_vec()).collect();
            parts = cut(random, &payload);
        }
        4 | 5 => {
            let size = parts[place].len().min(HEADER);
            let number = place as u8;
            let bytes = [0x00, 0x01, 0x02, 0x04, 0x09, 0xFF, number, number.wrapping_add(2)];
            parts[place][random.below(size)] = random.pick(&bytes);
        }
        6 => {
            parts.remove(place);
        }
        7 => {
            let again = parts[place].clone();
            parts.insert(place, again);
        }
        8 => {
            let moved = parts.remove(place);
            parts.insert(random.within(0, parts.len()), moved);
        }
        _ => {
            let count = random.within(1, 10);
            parts.push(random.bytes(count));
        }
    }
    Some([head, &parts.concat()].concat())
}

/// The packets in some bytes as their headers' lengths say; none of them is empty, and bytes that no length
/// takes are the last one.
fn parts(mut bytes: &[u8]) -> Vec<Vec<u8>> {
    let mut parts = Vec::new();
    while !bytes.is_empty() {
        let length =
            bytes.get(2..4).map_or(0, |two| usize::from(two[0]) << 8 | usize::from(two[1]));
        let size = if (HEADER..=bytes.len()).contains(&length) { length } else { bytes.len() };
        let (part, rest) = bytes.split_at(size);
        parts.push(part.to_vec());
        bytes = rest;
    }
    parts
}

/// The procedure call with a whole parameter taken away, repeated, or put before another one.
fn procedure(random: &mut Random, input: &[u8]) -> Option<Vec<u8>> {
    let ends = procedures::ends(input);
    let place = random.below(ends.len().checked_sub(1).filter(|count| *count > 0)?);
    let (start, end) = (ends[place], ends[place + 1]);
    let mut changed = input.to_vec();
    if random.one_in(3) {
        changed.drain(start..end);
    } else {
        let other = random.pick(&ends);
        changed.splice(other..other, input[start..end].to_vec());
    }
    Some(changed)
}

/// The login with a table entry or the place of its features moved, or with a feature more; at times
/// another login.
fn login(random: &mut Random, input: &[u8]) -> Vec<u8> {
    let length = input.len();
    let mut body = input.to_vec();
    match random.below(8) {
        0 => return random_login(random),
        1 => {
            let length = random.within(0, 200);
            return scattered_login(random, length);
        }
        2 | 3 => {
            let entry = random.pick(&[52, 54, 56, 68, 70]);
            let number = random.within(0, length + 2) as u16;
            put(&mut body, entry, &number.to_le_bytes());
        }
        4 => {
            let pointer = number_at(&body, 56);
            let place = random.within(0, length + 2) as u32;
            put(&mut body, pointer, &place.to_le_bytes());
        }
        _ => {
            let place = feature_place(random, &body);
            body.splice(place..place, random_feature(random).bytes());
        }
    }
    body
}

/// A place between two features, or the end of the body.
fn feature_place(random: &mut Random, body: &[u8]) -> usize {
    let pointer = number_at(body, 56);
    let mut place = number_at(body, pointer);
    while place + 5 <= body.len() && body[place] != 0xFF && !random.one_in(3) {
        place += 5 + number_at(body, place + 1);
    }
    place.min(body.len())
}

/// The two bytes there as a number, the lower one first; 0 past the end.
fn number_at(body: &[u8], place: usize) -> usize {
    let byte = |place: usize| usize::from(body.get(place).copied().unwrap_or(0));
    byte(place) | byte(place + 1) << 8
}

fn put(body: &mut [u8], place: usize, bytes: &[u8]) {
    for (old, byte) in body.iter_mut().skip(place).zip(bytes) {
        *old = *byte;
    }
}
