//! Captures of requests, beside a second reader: the numbers of their marked records.

use super::Size;
use crate::answers::capture::marks;
use crate::compare::{Check, Expected};
use crate::hex::hex;
use crate::inputs::capture::{random_body, random_capture, random_records};
use crate::inputs::request::small_bodies;
use crate::random::Random;
use crate::refusal::SHORT_BUFFER;
use crate::script::records::{FEATURE, REQUEST_BODY, Record, SET, written};
use crate::station::station_capture_marks;

/// A record's head, and with the shortest body that can be marked.
const HEAD: usize = 6;
const SHORTEST: usize = HEAD + 4;

pub fn compare(size: Size) -> Vec<Check> {
    let mut check = Check::new("station_capture_marks");
    let mut random = size.random("capture");
    every_short_capture(&mut check);
    every_small_body(&mut check);
    every_prefix(&mut check, &mut random, size.count(40, 1_000));
    long(&mut check, &mut random);
    for _ in 0..size.count(40_000, 800_000) {
        capture(&mut check, &random_capture(&mut random));
    }
    vec![check]
}

/// One capture, for tests/fuzz.
#[allow(dead_code)]
pub fn compare_one(bytes: &[u8]) -> Vec<Check> {
    let mut check = Check::new("station_capture_marks");
    capture(&mut check, bytes);
    vec![check]
}

/// A capture with as many slots as it has marks, with more, with one less and with none.
fn capture(check: &mut Check, bytes: &[u8]) {
    let mut lend = |slots, expected: Expected| {
        check.call(|| hex(bytes), (0, slots), expected, |_, out| station_capture_marks(bytes, out));
    };
    match marks(bytes) {
        Ok(marks) => {
            let whole = Expected { code: marks.len() as i64, bytes: &[], slots: &marks };
            lend(marks.len(), whole);
            lend(marks.len() + 3, whole);
            if !marks.is_empty() {
                lend(marks.len() - 1, Expected::refused(SHORT_BUFFER));
                lend(0, Expected::refused(SHORT_BUFFER));
            }
        }
        Err(number) => {
            lend(0, Expected::refused(number));
            lend(5, Expected::refused(number));
        }
    }
}

/// All captures of up to two bytes; a head of every kind and of lengths around the body's.
fn every_short_capture(check: &mut Check) {
    capture(check, &[]);
    for first in 0..=u8::MAX {
        capture(check, &[first]);
        for second in 0..=u8::MAX {
            capture(check, &[first, second]);
        }
    }
    for kind in 0..=u16::MAX {
        for length in [3, 4, 5] {
            let mut bytes = vec![length, 0, 0, 0];
            bytes.extend(kind.to_le_bytes());
            bytes.extend([0; 4]);
            capture(check, &bytes);
        }
    }
}

/// Bodies of up to five bytes that are 00 to 05 or FF, alone and as the second of three records.
fn every_small_body(check: &mut Check) {
    for body in (0..=5).flat_map(small_bodies) {
        capture(check, &written(&[Record::new(REQUEST_BODY, body.clone())]));
        let three = [vec![3, 0, 0, 0, 9], body, vec![0; 4]];
        capture(check, &written(&three.map(|body| Record::new(REQUEST_BODY, body))));
    }
}

/// Every prefix of captures, and of captures whose last record has another kind.
fn every_prefix(check: &mut Check, random: &mut Random, count: usize) {
    for _ in 0..count {
        let mut bytes = written(&random_records(random, 8));
        for kind in [REQUEST_BODY, FEATURE, SET] {
            bytes.extend(written(&[Record::new(kind, random_body(random))]));
            for end in 0..=bytes.len() {
                capture(check, &bytes[..end]);
            }
        }
    }
}

/// Captures of 65,536 bytes and more: of the most records, of the most marks, of one body.
fn long(check: &mut Check, random: &mut Random) {
    for length in [65_535, 65_536, 65_537, 131_072] {
        let empty = vec![Record::new(REQUEST_BODY, []); length / HEAD];
        let small = vec![Record::new(REQUEST_BODY, [2, 0, 0, 0]); length / SHORTEST];
        let one = [Record::new(REQUEST_BODY, vec![0; length - HEAD])];
        for mut bytes in [written(&empty), written(&small), written(&one)] {
            capture(check, &bytes);
            bytes.extend(random.bytes(1));
            capture(check, &bytes);
        }
    }
}
