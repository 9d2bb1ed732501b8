//! Arguments of the other replies: texts, features and routes.

use crate::answers::response::Routing;
use crate::random::Random;
use crate::script::records::{DATABASE_ROUTE, FEATURE, PLAIN_ROUTE, Record};
use crate::utf16;

pub const PORTS: [u16; 6] = [0, 1, 1433, 0x7FFF, 0x8000, 0xFFFF];

/// Empty, one unit, one and three bytes, pairs whole, cut and turned round.
pub fn short_texts() -> Vec<Vec<u8>> {
    [
        &b""[..],
        b"a\0",
        b"a",
        b"a\0b",
        &[0x3D, 0xD8],
        &[0x00, 0xDE],
        &[0x3D, 0xD8, 0x00, 0xDE],
        &[0x00, 0xDE, 0x3D, 0xD8],
        &[0x3D, 0xD8, 0x00],
        &[0xE9, 0x00, 0xAC, 0x20],
    ]
    .map(<[u8]>::to_vec)
    .to_vec()
}

/// Texts of so many units: of characters of one to four bytes in UTF-8, ill-formed and odd.
pub fn long_texts(units: usize) -> Vec<Vec<u8>> {
    let of = |unit: u16| unit.to_le_bytes().repeat(units);
    let mut pairs = utf16::bytes(&[0xD83D, 0xDE00]).repeat(units / 2);
    pairs.extend(b"a\0".repeat(units % 2));
    let mut odd = of(0x41);
    odd.push(0);
    vec![of(0x41), of(0xE9), of(0x20AC), of(0xD83D), pairs, odd]
}

pub fn random_argument(random: &mut Random) -> Vec<u8> {
    let count = random.within(0, 12);
    let text = utf16::random_text(random, count);
    let text = if random.one_in(10) { utf16::spoiled(random, &text) } else { text };
    let mut bytes = utf16::bytes(&text);
    if random.one_in(12) {
        bytes.push(random.byte());
    }
    bytes
}

pub fn random_route(random: &mut Random) -> Record {
    if random.one_in(3) {
        return Record::new(PLAIN_ROUTE, []);
    }
    Record::new(DATABASE_ROUTE, random_argument(random))
}

pub fn random_routing<'a>(random: &mut Random, host: &'a [u8]) -> Routing<'a> {
    Routing {
        host,
        port: random.pick(&PORTS),
        login_ack: random.one_in(2),
        ack: random.one_in(2).then(|| random.byte()),
        ack_before: random.one_in(2),
    }
}

/// A feature with its id and up to nine bytes of data.
pub fn random_feature(random: &mut Random) -> Record {
    let count = random.within(0, 9);
    Record::new(FEATURE, random.bytes(1 + count))
}
