//! Scripts: valid ones of every kind, ones with empty chunks and long names, damaged ones.

use super::damaged as damaged_bytes;
use crate::random::Random;
use crate::script::records::{self, Record};
use crate::utf16;

/// How large a random script grows, and what it may hold.
#[derive(Clone, Copy)]
pub struct Shape {
    pub sets: usize,
    pub columns: usize,
    pub rows: usize,
    pub text: usize,
    pub chunks: usize,
    /// Whether the script shall fit: no classification, cells of their columns' types.
    pub fits: bool,
    /// One chunk or name in so many is empty or too long.
    pub faults: Option<usize>,
}

pub const SMALL: Shape =
    Shape { sets: 2, columns: 3, rows: 2, text: 4, chunks: 2, fits: false, faults: None };
pub const WIDE: Shape =
    Shape { sets: 4, columns: 9, rows: 6, text: 40, chunks: 4, fits: false, faults: None };

/// A script of one of several shapes.
pub fn random_script(random: &mut Random) -> Vec<Record> {
    let shape = if random.one_in(3) { WIDE } else { SMALL };
    let fits = !random.one_in(3);
    let faults = random.one_in(4).then_some(20);
    of_shape(random, Shape { fits, faults, ..shape })
}

pub fn of_shape(random: &mut Random, shape: Shape) -> Vec<Record> {
    let mut script = Vec::new();
    for _ in 0..random.within(1, shape.sets) {
        add_set(random, shape, &mut script);
    }
    if random.one_in(3) {
        for _ in 0..random.within(1, 2) {
            script.push(random_info(random, shape, records::TRAILING));
        }
    }
    script
}

fn add_set(random: &mut Random, shape: Shape, script: &mut Vec<Record>) {
    let classification = random_classification(random, shape);
    script.push(records::set(&classification));
    let types: Vec<u8> =
        (0..random.within(0, shape.columns)).map(|_| random.within(1, 8) as u8).collect();
    for type_byte in &types {
        let collation = random.bytes(5).try_into().unwrap();
        let name = random_name(random, shape);
        script.push(records::column(*type_byte, collation, &name));
    }
    for (kind, times) in [(records::LEADING, 5), (records::TERMINAL, 12)] {
        if random.one_in(times) {
            let (number, severity) = (random.number(), random.byte());
            let text = utf16::random_text_bytes(random, shape.text);
            script.push(records::error(kind, number, severity, &text));
        }
    }
    for _ in 0..random.below(6).saturating_sub(3) {
        script.push(random_info(random, shape, records::INFO));
    }
    add_rows(random, shape, &types, script);
}

fn random_classification(random: &mut Random, shape: Shape) -> Vec<u8> {
    if shape.fits || !random.one_in(4) {
        return Vec::new();
    }
    let count = random.within(1, 12);
    random.bytes(count)
}

/// A name; at times one of 250 to 260 units where faults are wanted.
fn random_name(random: &mut Random, shape: Shape) -> Vec<u8> {
    if shape.faults.is_some_and(|times| random.one_in(times)) {
        let count = random.within(250, 260);
        return utf16::bytes(&utf16::random_text(random, count));
    }
    utf16::random_text_bytes(random, shape.text)
}

fn random_info(random: &mut Random, shape: Shape, kind: u16) -> Record {
    let numbers = (random.number(), random.byte(), random.byte(), random.number());
    let message = utf16::random_text_bytes(random, shape.text);
    let server = random_name(random, shape);
    let procedure = random_name(random, shape);
    records::info_of(kind, numbers, [&message, &server, &procedure])
}

fn add_rows(random: &mut Random, shape: Shape, types: &[u8], script: &mut Vec<Record>) {
    if shape.fits && types.is_empty() {
        return;
    }
    for _ in 0..random.within(0, shape.rows) {
        script.push(records::row());
        let count = match random.below(6) {
            0 if !shape.fits => random.within(0, shape.columns + 1),
            _ => types.len(),
        };
        for place in 0..count {
            let value = match types.get(place) {
                Some(type_byte) if shape.fits || !random.one_in(6) => {
                    fitting_value(random, *type_byte)
                }
                _ => random.within(1, 10) as u8,
            };
            add_cell(random, shape, value, script);
        }
    }
}

/// A value that goes with the type.
pub fn fitting_value(random: &mut Random, type_byte: u8) -> u8 {
    let null = random.one_in(4);
    match type_byte {
        1..=4 if null => 10,
        1..=6 if !null || type_byte == 5 => type_byte,
        7 | 8 if !null => type_byte + 1,
        _ => 7,
    }
}

fn add_cell(random: &mut Random, shape: Shape, value: u8, script: &mut Vec<Record>) {
    let data = match value {
        1..=4 => random_integer(random, 1 << (value - 1)),
        5 => utf16::random_text_bytes(random, shape.text),
        _ => Vec::new(),
    };
    script.push(records::cell(value, &data));
    if matches!(value, 6 | 8 | 9) {
        for _ in 0..random.within(0, shape.chunks) {
            let chunk = random_chunk(random, shape, value);
            script.push(records::chunk(&chunk));
        }
    }
}

/// The bytes of a number at a border of its width, or of any.
fn random_integer(random: &mut Random, width: usize) -> Vec<u8> {
    let mut bytes = match random.below(4) {
        0 => vec![0x00; width],
        1 => vec![0xFF; width],
        _ => random.bytes(width),
    };
    if random.one_in(3) {
        bytes[width - 1] = random.pick(&[0x7F, 0x80]);
    }
    bytes
}

fn random_chunk(random: &mut Random, shape: Shape, value: u8) -> Vec<u8> {
    if shape.faults.is_some_and(|times| random.one_in(times)) {
        return Vec::new();
    }
    let count = random.within(1, 3 * shape.text);
    random.bytes(if value == 6 { 2 * count } else { count })
}

/// The script with one to three things wrong in its records or its bytes.
pub fn damaged(random: &mut Random, script: &[Record]) -> Vec<u8> {
    let mut script = script.to_vec();
    for _ in 0..random.within(1, 3) {
        if random.one_in(3) {
            return damaged_bytes(random, &records::written(&script));
        }
        damage_record(random, &mut script);
    }
    if random.one_in(4) {
        return with_wrong_length(random, &script);
    }
    records::written(&script)
}

fn damage_record(random: &mut Random, script: &mut Vec<Record>) {
    let stranger = random_record(random);
    let place = random.within(0, script.len());
    if place == script.len() {
        script.push(stranger);
        return;
    }
    match random.below(9) {
        0 => script[place].kind = random.within(0, 12) as u16,
        1 => script[place].kind = random.next() as u16,
        2 => script[place].payload.push(random.byte()),
        3 => {
            script[place].payload.pop();
        }
        4 => spoil_text(random, &mut script[place]),
        5 => script.insert(place, stranger),
        6 => {
            script.remove(place);
        }
        7 => {
            let twin = script[place].clone();
            script.insert(place, twin);
        }
        _ => {
            let other = random.below(script.len());
            script.swap(place, other);
        }
    }
}

/// A well-shaped record of any kind of a script.
pub fn random_record(random: &mut Random) -> Record {
    let shape = Shape { faults: Some(6), ..SMALL };
    let text = utf16::random_text_bytes(random, shape.text);
    match random.within(1, 9) as u16 {
        records::SET => records::set(&random_classification(random, shape)),
        records::COLUMN => records::column(random.within(1, 8) as u8, [9, 4, 0xD0, 0, 0x34], &text),
        records::ROW => records::row(),
        records::CELL => {
            let mut cell = Vec::new();
            let value = random.within(1, 10) as u8;
            add_cell(random, shape, value, &mut cell);
            cell.swap_remove(0)
        }
        records::CHUNK => {
            let value = random.pick(&[6, 8]);
            records::chunk(&random_chunk(random, shape, value))
        }
        kind @ (records::LEADING | records::TERMINAL) => records::error(kind, 1222, 13, &text),
        kind => random_info(random, shape, kind),
    }
}

/// Makes one of the last units of the payload a surrogate.
fn spoil_text(random: &mut Random, record: &mut Record) {
    let length = record.payload.len();
    let back = 2 * random.within(1, 3);
    if length >= back {
        let surrogate = random.within(0xD800, 0xDFFF) as u16;
        record.payload[length - back..][..2].copy_from_slice(&surrogate.to_le_bytes());
    }
}

/// The script's bytes with the length of one record wrong.
fn with_wrong_length(random: &mut Random, script: &[Record]) -> Vec<u8> {
    let before = records::written(&script[..random.within(0, script.len().saturating_sub(1))]);
    let mut bytes = records::written(script);
    if let Some(length) = bytes.get_mut(before.len()..before.len() + 4) {
        let told = u32::from_le_bytes(length.try_into().unwrap());
        let wrong = match random.below(3) {
            0 => random.number(),
            1 => told.wrapping_add(1),
            _ => told.wrapping_sub(1),
        };
        length.copy_from_slice(&wrong.to_le_bytes());
    }
    bytes
}
