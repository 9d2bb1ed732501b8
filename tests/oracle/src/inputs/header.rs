//! Packet headers.

use crate::answers::header::Fields;
use crate::random::Random;

pub const PACKET_TYPES: [u8; 8] = [0x01, 0x03, 0x04, 0x06, 0x08, 0x0E, 0x10, 0x12];

/// Header bytes, mostly of a known type and mostly whole.
pub fn random_header(random: &mut Random) -> Vec<u8> {
    let count = if random.one_in(4) { random.within(0, 12) } else { 8 };
    let mut bytes = random.bytes(count);
    if let Some(first) = bytes.first_mut()
        && !random.one_in(4)
    {
        *first = random.pick(&PACKET_TYPES);
    }
    bytes
}

/// Numbers at the borders of a header's fields, of one byte and of two.
pub const BYTES: [u8; 6] = [0, 1, 0x7F, 0x80, 0xFE, 0xFF];
pub const NUMBERS: [u16; 10] = [0, 1, 7, 8, 0xFF, 0x100, 0x7FFF, 0x8000, 0xFFFE, 0xFFFF];

/// The fields of a header, mostly of a known type.
pub fn random_fields(random: &mut Random) -> Fields {
    let known = !random.one_in(8);
    let bytes = random.bytes(8);
    Fields {
        packet_type: if known { random.pick(&PACKET_TYPES) } else { bytes[0] },
        status: bytes[1],
        length: u16::from_be_bytes([bytes[2], bytes[3]]),
        spid: u16::from_be_bytes([bytes[4], bytes[5]]),
        number: bytes[6],
        window: bytes[7],
    }
}

/// Every border of each field with every one of the others, of a packet type.
pub fn border_fields(packet_type: u8) -> impl Iterator<Item = Fields> {
    let bytes = || BYTES.into_iter().flat_map(|one| BYTES.map(|other| (one, other)));
    NUMBERS.into_iter().flat_map(move |length| {
        NUMBERS.into_iter().flat_map(move |spid| {
            bytes().map(move |(number, window)| Fields {
                packet_type,
                status: 1,
                length,
                spid,
                number,
                window,
            })
        })
    })
}
