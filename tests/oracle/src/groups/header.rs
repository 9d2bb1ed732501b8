//! `PacketHeader::parse` and `PacketHeader::write`.

use super::Size;
use crate::answers::header::{Fields, header, written};
use crate::compare::{Check, Expected};
use crate::hex::hex;
use crate::inputs::header::{PACKET_TYPES, border_fields, random_fields, random_header};
use crate::refusal::SHORT_BUFFER;
use crate::station::{station_parse_header, station_write_header};

const FIELDS: usize = 6;
const BYTES: usize = 8;

pub fn compare(size: Size) -> Vec<Check> {
    vec![parse(size), write(size)]
}

fn parse(size: Size) -> Check {
    let mut check = Check::new("station_parse_header");
    let mut random = size.random("header");
    every_pair_of_bytes(&mut check);
    for length in 0..=9 {
        for packet_type in 0..=0xFF {
            let mut bytes = random.bytes(length);
            if let Some(first) = bytes.first_mut() {
                *first = packet_type;
            }
            compare_header(&mut check, &bytes);
        }
    }
    for _ in 0..size.count(100_000, 4_000_000) {
        compare_header(&mut check, &random_header(&mut random));
    }
    check
}

/// All types and statuses, the borders of the other fields of all known types, and random ones.
fn write(size: Size) -> Check {
    let mut check = Check::new("station_write_header");
    let mut random = size.random("write_header");
    for packet_type in 0..=0xFF {
        for status in 0..=0xFF {
            let fields = random_fields(&mut random);
            compare_written(&mut check, Fields { packet_type, status, ..fields });
        }
    }
    for fields in PACKET_TYPES.into_iter().flat_map(border_fields) {
        compare_written(&mut check, fields);
    }
    for packet_type in 0..=0xFF {
        short_buffers(&mut check, Fields { packet_type, ..random_fields(&mut random) });
    }
    for _ in 0..size.count(50_000, 2_000_000) {
        compare_written(&mut check, random_fields(&mut random));
    }
    check
}

/// One header, read and, where it is whole, written; for tests/fuzz.
#[allow(dead_code)]
pub fn compare_one(bytes: &[u8]) -> Vec<Check> {
    let mut checks = [Check::new("station_parse_header"), Check::new("station_write_header")];
    compare_header(&mut checks[0], bytes);
    if let Some(&[packet_type, status, a, b, c, d, number, window]) = bytes.first_chunk() {
        let (length, spid) = (u16::from_be_bytes([a, b]), u16::from_be_bytes([c, d]));
        let fields = Fields { packet_type, status, length, spid, number, window };
        compare_written(&mut checks[1], fields);
    }
    checks.into()
}

/// All 2^16 values of type and status, of the length, of the spid, and of number and window.
fn every_pair_of_bytes(check: &mut Check) {
    for place in [0, 2, 4, 6] {
        for pair in 0..=u16::MAX {
            let mut bytes = [0x04, 0x01, 0x12, 0x34, 0x56, 0x78, 0x9A, 0xBC];
            bytes[place..place + 2].copy_from_slice(&pair.to_be_bytes());
            compare_header(check, &bytes);
        }
    }
}

fn compare_header(check: &mut Check, bytes: &[u8]) {
    let answer = header(bytes).map(|header| (0, header.fields.to_vec()));
    check.slots(|| hex(bytes), &answer, FIELDS, |out| station_parse_header(bytes, out));
}

fn compare_written(check: &mut Check, fields: Fields) {
    check.buffer(|| shown(fields), &written(fields), |buffer| write_header(fields, buffer));
}

/// Every buffer that is too short for a header.
fn short_buffers(check: &mut Check, fields: Fields) {
    let number = written(fields).err().unwrap_or(SHORT_BUFFER);
    for size in 0..BYTES {
        let call = |buffer: &mut [u8], _: &mut [u64]| write_header(fields, buffer);
        check.call(|| shown(fields), (size, 0), Expected::refused(number), call);
    }
}

fn write_header(fields: Fields, buffer: &mut [u8]) -> i64 {
    let Fields { packet_type, status, length, spid, number, window } = fields;
    station_write_header(packet_type, status, length, spid, number, window, buffer)
}

fn shown(fields: Fields) -> String {
    fields.words().join(" ")
}
