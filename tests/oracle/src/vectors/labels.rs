//! Event labels: values that are read, and texts that are written.

use super::{Vectors, print_line, words};
use crate::answers::labels::{MOST, UNKNOWN, read, value, write};
use crate::answers::windows1252::{UPPER, unit_of};
use crate::hex::{packed, unhex};
use crate::inputs::labels::{BORDER_UNITS, random_text, random_value};
use crate::random::Random;
use crate::refusal::SHORT_BUFFER;
use crate::utf16;
use std::collections::BTreeSet;

/// The most characters of a random label.
const LONGEST: usize = 40;
/// A buffer that is longer than any label needs.
const LONG: usize = 2 * MOST + 2;

pub fn print(vectors: Vectors) {
    read_labels(vectors);
    written_labels(vectors);
}

/// The cases and each byte from 80 to 9F, in rooms at the border; random values; long ones.
fn read_labels(vectors: Vectors) {
    let upper = UPPER.map(|byte| value(1, &[&[byte]]));
    for value in VALUES.map(unhex).into_iter().chain(upper) {
        for lent in rooms(text_size(&value)) {
            print_read(&value, lent);
        }
    }
    let mut random = vectors.random("read_label");
    for value in vectors.inputs("value", Vec::new(), |random| some(random, random_value)) {
        print_read(&value, any_room(&mut random, text_size(&value)));
    }
    for (value, lent) in long_values() {
        print_read(&value, lent);
    }
}

/// The cases of document 02, 2026-07; each field cut, each fault, and faults behind one another.
const VALUES: [&str; 34] = [
    "FEFFFFFFFFFFFFFF 01000000 80 00000000",
    "0200000000000000 01000000 41 01000000 81 00000000",
    "0000000000000000 00000000",
    "FEFFFFFFFFFFFFFF 00000000",
    "FFFFFFFFFFFFFFFF",
    "",
    "FF",
    "00000000000000",
    "FFFFFFFFFFFFFF",
    "0000000000000000",
    "FEFFFFFFFFFFFFFF",
    "0000000000000000 000000",
    "0100000000000000 010000",
    "0100000000000000 01000000",
    "0100000000000000 01000000 41",
    "0100000000000000 01000000 41 000000",
    "0200000000000000 02000000 41",
    "0300000000000000 01000000 41 02000000 42",
    "FEFFFFFFFFFFFFFF 01000000 41 FFFFFFFF 42",
    "FDFFFFFFFFFFFFFF FFFFFFFF 41",
    "FFFFFFFFFFFFFFFF FF",
    "FFFFFFFFFFFFFFFF 00000000",
    "0100000000000000 02000000",
    "0100000000000000 02000000 4142 00000000",
    "0100000000000000 01000000 41 01000000",
    "0200000000000000 01000000 41 02000000 4243 00000000",
    "0100000000000000 00000000",
    "0200000000000000 01000000 41 00000000",
    "0000000000000001 01000000 41 00000000",
    "0000000000000000 01000000 41 00000000",
    "0000000000000000 00000000 00",
    "0100000000000000 01000000 41 00000000 00000000",
    "FEFFFFFFFFFFFFFF 02000000 8E9F 00000000 41",
    "0100000000000000 01000000 41 00000000 FFFFFFFFFFFFFFFF",
];

/// Labels of the most characters and one more, of known and unknown total, in one chunk and in two;
/// longer ones that are cut, or that a byte follows; and with a total that is one off.
fn long_values() -> Vec<(Vec<u8>, usize)> {
    let characters = vec![0x9C; MOST + 1];
    let longest = &characters[..MOST];
    let mut cases = Vec::new();
    for total in [MOST as u64, UNKNOWN] {
        for chunks in [&[longest][..], &[&longest[..40_000], &longest[40_000..]]] {
            let value = value(total, chunks);
            cases.extend([0, 2 * MOST - 1, 2 * MOST, LONG].map(|lent| (value.clone(), lent)));
        }
    }
    for total in [MOST as u64 + 1, UNKNOWN] {
        for chunks in [&[&characters[..]][..], &[longest, &characters[MOST..]]] {
            let value = value(total, chunks);
            let cut = value[..value.len() - 1].to_vec();
            let followed = [&value[..], &[0x00]].concat();
            cases.extend([value, cut, followed].map(|value| (value, LONG)));
        }
    }
    cases.push((value(MOST as u64, &[&characters]), LONG));
    cases.push((value(MOST as u64 + 2, &[&characters]), LONG));
    cases
}

/// The cases, the units of the bytes from 80 to 9F, those of these numbers and at borders, in rooms at
/// the border; random texts; long ones.
fn written_labels(vectors: Vectors) {
    let upper = UPPER.flat_map(|byte| [unit_of(byte), byte.into()]);
    let units: BTreeSet<u16> = upper.chain(BORDER_UNITS).collect();
    let units = units.into_iter().map(|unit| utf16::bytes(&[unit]));
    for text in TEXTS.map(unhex).into_iter().chain(units) {
        for lent in rooms(value_size(&text)) {
            print_written(&text, lent);
        }
    }
    let mut random = vectors.random("write_label");
    for text in vectors.inputs("label", Vec::new(), |random| some(random, random_text)) {
        print_written(&text, any_room(&mut random, value_size(&text)));
    }
    for (text, lent) in long_texts() {
        print_written(&text, lent);
    }
}

/// The cases of document 02, 2026-07; units without a byte at each place, and odd texts.
const TEXTS: [&str; 10] = [
    "",
    "41",
    "3DD800DE",
    "00DE3DD8",
    "41004200",
    "4100AC20FF00",
    "800041",
    "4100AC208000",
    "800041004200",
    "41000001AC20",
];

/// Texts of the most units and one more; with a unit that has no byte, and odd.
fn long_texts() -> Vec<(Vec<u8>, usize)> {
    let longest = [0x53, 0x01].repeat(MOST);
    let longer = [0x53, 0x01].repeat(MOST + 1);
    let mut faulty = longer.clone();
    faulty[2 * MOST..].copy_from_slice(&[0x80, 0x00]);
    let rooms = [0, MOST + 15, MOST + 16, LONG];
    let mut cases: Vec<(Vec<u8>, usize)> = rooms.map(|lent| (longest.clone(), lent)).into();
    let odd = longer[..2 * MOST + 1].to_vec();
    cases.extend([longer.clone(), faulty, odd].map(|text| (text, LONG)));
    cases.push((longer, 0));
    cases
}

/// A random label of a few characters.
fn some(random: &mut Random, label: fn(&mut Random, usize) -> Vec<u8>) -> Vec<u8> {
    let count = random.within(0, LONGEST);
    label(random, count)
}

/// The bytes that a value's text needs, and those that a text's value needs; none where it is refused.
fn text_size(value: &[u8]) -> usize {
    read(value).ok().flatten().map_or(0, |text| text.len())
}

fn value_size(text: &[u8]) -> usize {
    write(text).map_or(0, |value| value.len())
}

/// Rooms at the border: one byte short and exact; where nothing is needed, none and some.
fn rooms(needed: usize) -> [usize; 2] {
    if needed == 0 { [0, 40] } else { [needed - 1, needed] }
}

fn any_room(random: &mut Random, needed: usize) -> usize {
    random.pick(&[needed, needed, needed + 1, needed + 40, needed.saturating_sub(1), 0])
}

fn print_read(value: &[u8], lent: usize) {
    let answer = read(value).and_then(|text| match text {
        None => Ok("null".to_string()),
        Some(text) if lent < text.len() => Err(SHORT_BUFFER),
        Some(text) => Ok(format!("text {}", packed(&text))),
    });
    print_line("read_label", &[lent.to_string(), packed(value)], &words(answer));
}

fn print_written(text: &[u8], lent: usize) {
    let answer = write(text).and_then(|value| {
        if lent < value.len() { Err(SHORT_BUFFER) } else { Ok(format!("value {}", packed(&value))) }
    });
    print_line("write_label", &[lent.to_string(), packed(text)], &words(answer));
}
