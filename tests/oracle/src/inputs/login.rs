//! Login bodies (MS-TDS 2.2.6.4): a fixed part with a table of offsets, texts, features.

use super::damaged;
use crate::random::Random;
use crate::utf16;

/// The fixed part with its table of offsets.
const FIXED: usize = 94;
const OPTION_FLAGS_3: usize = 27;
const HAS_FEATURES: u8 = 0x10;
const SERVER_ENTRY: usize = 52;
const FEATURE_ENTRY: usize = 56;
const DATABASE_ENTRY: usize = 68;

/// A feature as it stands on the wire: its length need not be that of its data.
#[derive(Clone, Debug)]
pub struct Feature {
    pub id: u8,
    pub told: u32,
    pub data: Vec<u8>,
}

impl Feature {
    /// A feature whose length is right.
    pub fn whole(id: u8, data: &[u8]) -> Self {
        Self { id, told: data.len() as u32, data: data.to_vec() }
    }

    /// A feature that says it is `told` bytes long.
    pub fn told(id: u8, told: u32, data: &[u8]) -> Self {
        Self { id, told, data: data.to_vec() }
    }

    pub fn bytes(&self) -> Vec<u8> {
        [&[self.id], &self.told.to_le_bytes()[..], &self.data].concat()
    }
}

/// The data of a FEDAUTH feature of library 1 with a token.
pub fn token_data(told: u32, token: &[u8]) -> Vec<u8> {
    [&[0x02], &told.to_le_bytes()[..], token].concat()
}

/// A login with the two texts and the features, and `tail` after them.
pub fn login(server: &[u8], database: &[u8], features: &[Feature], tail: &[u8]) -> Vec<u8> {
    let mut body = vec![0; FIXED];
    body[OPTION_FLAGS_3] = HAS_FEATURES;
    for (entry, text) in [(SERVER_ENTRY, server), (DATABASE_ENTRY, database)] {
        let start = body.len();
        put16(&mut body, entry, start);
        put16(&mut body, entry + 2, text.len() / 2);
        body.extend(text);
    }
    let pointer = body.len();
    put16(&mut body, FEATURE_ENTRY, pointer);
    put16(&mut body, FEATURE_ENTRY + 2, 4);
    body.extend((pointer as u32 + 4).to_le_bytes());
    for feature in features {
        body.extend(feature.bytes());
    }
    body.extend(tail);
    body
}

/// A well-made login with random texts and features, ended or not; often damaged.
pub fn random_login(random: &mut Random) -> Vec<u8> {
    let server = random_login_text(random);
    let database = random_login_text(random);
    let features: Vec<Feature> = (0..random.below(5)).map(|_| random_feature(random)).collect();
    let tail: &[u8] = random.pick(&[&[0xFF][..], &[0xFF], &[], &[0x01, 0x02]]);
    let body = login(&server, &database, &features, tail);
    if random.one_in(3) { damaged(random, &body) } else { body }
}

fn random_login_text(random: &mut Random) -> Vec<u8> {
    let count = random.below(9);
    let text = utf16::random_text(random, count);
    let text = if random.one_in(10) { utf16::spoiled(random, &text) } else { text };
    utf16::bytes(&text)
}

pub fn random_feature(random: &mut Random) -> Feature {
    let id = random.pick(&[0x01, 0x02, 0x02, 0x09, 0x0F, 0x10, 0x10, 0x55]);
    let data = match id {
        0x02 => random_fedauth(random),
        0x10 => random_login_text(random),
        _ => {
            let count = random.below(4);
            random.bytes(count)
        }
    };
    match random.below(8) {
        0 => {
            Feature::told(id, (data.len() as u32).wrapping_add(random.pick(&[1, 2, !0, !1])), &data)
        }
        1 => Feature::told(id, random.number(), &data),
        _ => Feature::whole(id, &data),
    }
}

/// FEDAUTH data of any library, with or without workflow or token.
fn random_fedauth(random: &mut Random) -> Vec<u8> {
    let count = random.below(8);
    if random.one_in(2) {
        let token = random.bytes(count);
        let told = (count as u32).wrapping_add(random.pick(&[0, 0, 0, 1, !0, !1]));
        return token_data(told, &token);
    }
    let mut data = random.bytes(count);
    if let Some(first) = data.first_mut() {
        *first = random.pick(&[0x00, 0x02, 0x04, 0x05, 0x06, 0xFD]);
    }
    data
}

/// A login of `length` bytes, with offsets into it and near its end.
pub fn scattered_login(random: &mut Random, length: usize) -> Vec<u8> {
    let mut body = random.bytes(length + 4);
    body.resize(length.max(FIXED), 0);
    if !random.one_in(8) {
        body[OPTION_FLAGS_3] |= HAS_FEATURES;
    }
    for entry in [SERVER_ENTRY, DATABASE_ENTRY] {
        let start = random.within(0, length + 2);
        put16(&mut body, entry, start);
        let count = random.within(0, 2 + length.saturating_sub(start) / 2);
        put16(&mut body, entry + 2, count);
    }
    let pointer = random.within(0, length);
    put16(&mut body, FEATURE_ENTRY, pointer);
    let features = random.within(0, length + 1);
    put_near(&mut body, pointer, &(features as u32).to_le_bytes());
    if random.one_in(2) {
        scatter_features(random, &mut body, features);
    }
    body.truncate(length);
    body
}

/// Lays features over the body from a place on.
fn scatter_features(random: &mut Random, body: &mut [u8], mut place: usize) {
    while place < body.len() {
        let feature = random_feature(random).bytes();
        put_near(body, place, &feature);
        place += feature.len();
    }
}

fn put16(body: &mut [u8], at: usize, number: usize) {
    body[at..at + 2].copy_from_slice(&(number as u16).to_le_bytes());
}

/// Writes as many of the bytes as there is room for.
fn put_near(body: &mut [u8], at: usize, bytes: &[u8]) {
    for (place, byte) in (at..).zip(bytes) {
        if let Some(old) = body.get_mut(place) {
            *old = *byte;
        }
    }
}
