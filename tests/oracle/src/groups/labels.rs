//! Event labels, beside a second reader and writer: values read to text, texts written as values.

use super::Size;
use crate::answers::labels::{MOST, NULL, UNKNOWN, joined, read, value, write};
use crate::answers::windows1252::unit_of;
use crate::compare::{Check, Expected};
use crate::hex::hex;
use crate::inputs::labels::*;
use crate::random::Random;
use crate::refusal::{Answer, SHORT_BUFFER};
use crate::station::{station_read_label, station_write_label};
use crate::utf16;
use std::ops::RangeInclusive;

/// The answer to a value that is null.
const NULL_READ: i64 = 1 << 32;
/// A buffer that is longer than any label needs.
const LONG: usize = 2 * MOST + 200;

/// Sums, numbers that no value reaches, and those that are no sums.
const TOTALS: [u64; 10] = [0, 1, 2, 3, 256, 1 << 32, 1 << 63, UNKNOWN - 1, UNKNOWN, NULL];

struct Labels {
    read: Check,
    write: Check,
}

pub fn compare(size: Size) -> Vec<Check> {
    let mut labels = Labels::new();
    let mut random = size.random("labels");
    labels.every_byte(size);
    labels.every_unit(size.count(2, 3));
    labels.every_short_value(size.count(5, 6), size.count(4, 5));
    labels.every_cut(&mut random, size.count(7, 10));
    labels.every_changed_byte(&mut random);
    labels.every_length(&mut random, size.count(300, 1_000));
    labels.around_the_longest(&mut random);
    labels.random(&mut random, size.count(20_000, 500_000), 0..=40);
    labels.random(&mut random, size.count(20, 300), 0..=MOST);
    labels.random(&mut random, size.count(20, 300), MOST - 2..=MOST + 3);
    labels.checks()
}

/// A value and a text, with so many bytes lent too, for tests/fuzz.
#[allow(dead_code)]
pub fn compare_one(value: &[u8], text: &[u8], lent: usize) -> Vec<Check> {
    let mut labels = Labels::new();
    lend(&mut labels.read, value, &text_answer(value), &[lent], station_read_label);
    lend(&mut labels.write, text, &value_answer(text), &[lent], station_write_label);
    labels.value_and_back(value);
    labels.text_and_back(text);
    labels.checks()
}

fn text_answer(value: &[u8]) -> Answer<(i64, Vec<u8>)> {
    Ok(read(value)?.map_or((NULL_READ, Vec::new()), |text| (text.len() as i64, text)))
}

fn value_answer(text: &[u8]) -> Answer<(i64, Vec<u8>)> {
    write(text).map(|value| (value.len() as i64, value))
}

/// Calls with so many bytes lent each.
fn lend(
    check: &mut Check,
    input: &[u8],
    answer: &Answer<(i64, Vec<u8>)>,
    sizes: &[usize],
    call: fn(&[u8], &mut [u8]) -> i64,
) {
    for size in sizes {
        let expected = match answer {
            Err(number) => Expected::refused(*number),
            Ok((_, bytes)) if *size < bytes.len() => Expected::refused(SHORT_BUFFER),
            Ok((code, bytes)) => Expected { code: *code, bytes, slots: &[] },
        };
        check.call(|| hex(input), (*size, 0), expected, |buffer, _| call(input, buffer));
    }
}

/// Buffers to lend: exact, longer, one byte short and none; of a refusal none, a short one and at
/// times a long one.
fn sizes(check: &Check, answer: &Answer<(i64, Vec<u8>)>) -> Vec<usize> {
    match answer {
        Ok((_, bytes)) if bytes.is_empty() => vec![0, 80],
        Ok((_, bytes)) => {
            let exact = bytes.len();
            vec![exact, exact + 1 + exact % 37, exact - 1, 0]
        }
        Err(_) if check.compared().is_multiple_of(16) => vec![0, 80, LONG],
        Err(_) => vec![0, 80],
    }
}

impl Labels {
    fn new() -> Self {
        Self { read: Check::new("station_read_label"), write: Check::new("station_write_label") }
    }

    fn checks(self) -> Vec<Check> {
        vec![self.read, self.write]
    }

    fn value(&mut self, value: &[u8]) {
        let answer = text_answer(value);
        let sizes = sizes(&self.read, &answer);
        lend(&mut self.read, value, &answer, &sizes, station_read_label);
    }

    fn text(&mut self, text: &[u8]) {
        let answer = value_answer(text);
        let sizes = sizes(&self.write, &answer);
        lend(&mut self.write, text, &answer, &sizes, station_write_label);
    }

    /// A value, and where it has a text, that text: the value written has the same bytes in its
    /// chunk, whatever the cuts were.
    fn value_and_back(&mut self, value: &[u8]) {
        self.value(value);
        if let Ok(Some(text)) = read(value) {
            assert_eq!(write(&text).and_then(|value| joined(&value)), joined(value));
            self.text(&text);
        }
    }

    /// A text, and where it can be written, the value: its text is the same.
    fn text_and_back(&mut self, text: &[u8]) {
        self.text(text);
        if let Ok(value) = write(text) {
            assert_eq!(read(&value).as_ref().map(Option::as_deref), Ok(Some(text)));
            self.value(&value);
        }
    }

    /// Each byte alone, of known and unknown total; all of them in one chunk, in two and in as many
    /// as there are; in a large run every two bytes, in one chunk and in two.
    fn every_byte(&mut self, size: Size) {
        let all: Vec<u8> = (0..=u8::MAX).collect();
        for total in [1, UNKNOWN] {
            for byte in &all {
                self.value_and_back(&value(total, &[&[*byte]]));
            }
        }
        let all_units: Vec<u16> = all.iter().map(|byte| unit_of(*byte)).collect();
        self.text_and_back(&utf16::bytes(&all_units));
        let (low, high) = all.split_at(0x80);
        let each: Vec<&[u8]> = all.chunks(1).collect();
        for chunks in [&[&all[..]][..], &[low, high], &[high, low], &each] {
            self.value_and_back(&value(256, chunks));
            self.value_and_back(&value(UNKNOWN, chunks));
        }
        if size.large {
            for one in &all {
                for two in &all {
                    self.value_and_back(&value(2, &[&[*one, *two]]));
                    self.value_and_back(&value(2, &[&[*one], &[*two]]));
                }
            }
        }
    }

    /// Every unit alone, beside a letter, beside one that has no byte, and with an odd byte after it;
    /// every so many border units, also with an odd byte.
    fn every_unit(&mut self, most: usize) {
        self.text_and_back(&[]);
        for unit in 0..=u16::MAX {
            self.text_and_back(&utf16::bytes(&[unit]));
            self.text_and_back(&utf16::bytes(&[0x41, unit]));
            self.text(&utf16::bytes(&[unit, 0x20AC]));
            self.text(&utf16::bytes(&[0x0080, unit]));
            self.text(&[&unit.to_le_bytes()[..], &[0x41]].concat());
        }
        for byte in 0..=u8::MAX {
            self.text(&[byte]);
        }
        for units in sequences(&BORDER_UNITS, most) {
            let mut text = utf16::bytes(&units);
            self.text_and_back(&text);
            text.push(0);
            self.text(&text);
        }
    }

    /// All values of up to two bytes; after each total all tails of up to so many bytes, and all of
    /// up to so many pieces: lengths, bytes of a chunk, and what follows.
    fn every_short_value(&mut self, most_bytes: usize, most_pieces: usize) {
        const BYTES: [&[u8]; 5] = [&[0x00], &[0x01], &[0x02], &[0x80], &[0xFF]];
        const PIECES: [&[u8]; 8] = [
            &[0, 0, 0, 0],
            &[1, 0, 0, 0],
            &[2, 0, 0, 0],
            &[0xFF, 0xFF, 0xFF, 0xFF],
            &[0, 0, 0, 1],
            &[0x80],
            &[0x41, 0x9F],
            &[0x00],
        ];
        self.value(&[]);
        for first in 0..=u8::MAX {
            self.value(&[first]);
            for second in 0..=u8::MAX {
                self.value(&[first, second]);
            }
        }
        let tails = [sequences(&BYTES, most_bytes), sequences(&PIECES, most_pieces)].concat();
        for total in TOTALS {
            for length in 0..8 {
                self.value(&total.to_le_bytes()[..length]);
            }
            for tail in &tails {
                self.value(&[&total.to_le_bytes()[..], &tail.concat()].concat());
            }
        }
    }

    /// Texts of up to so many characters cut in all ways, of totals that are right, unknown and wrong:
    /// these values, their prefixes from the total on, and with one and two bytes after them.
    fn every_cut(&mut self, random: &mut Random, most: usize) {
        for count in 0..=most {
            let characters = random.bytes(count);
            for sizes in all_sizes(count) {
                let chunks = in_chunks(&characters, &sizes);
                let sum = count as u64;
                for total in [sum, UNKNOWN, sum + 1, sum.wrapping_sub(1)] {
                    let mut value = value(total, &chunks);
                    self.value_and_back(&value);
                    for end in 8..value.len() {
                        self.value(&value[..end]);
                    }
                    for byte in [0x00, 0x41] {
                        value.push(byte);
                        self.value(&value);
                    }
                }
            }
        }
    }

    /// Each byte of a value in three chunks, of null and of an empty text, made every other one.
    fn every_changed_byte(&mut self, random: &mut Random) {
        let characters = random.bytes(6);
        let chunks = in_chunks(&characters, &[1, 3, 2]);
        let null = NULL.to_le_bytes().to_vec();
        for good in [value(6, &chunks), value(UNKNOWN, &chunks), null, value(0, &[])] {
            for place in 0..good.len() {
                for byte in 0..=u8::MAX {
                    let mut value = good.clone();
                    value[place] = byte;
                    self.value_and_back(&value);
                }
            }
        }
    }

    /// Labels of every length up to so many characters, in one chunk and in several.
    fn every_length(&mut self, random: &mut Random, most: usize) {
        for count in 0..=most {
            let characters = random.bytes(count);
            let several = random_sizes(random, count);
            for sizes in [vec![count; usize::from(count > 0)], several] {
                let chunks = in_chunks(&characters, &sizes);
                self.value_and_back(&value(count as u64, &chunks));
                self.value_and_back(&value(UNKNOWN, &chunks));
            }
        }
    }

    /// Labels of 65,534 to 65,537 characters and of twice as many, in one chunk, in two, in many, and in
    /// chunks of one byte: right, of unknown and wrong totals, cut, and with a byte after them. Texts of
    /// as many units: right, with one at either end that has no byte, and odd.
    fn around_the_longest(&mut self, random: &mut Random) {
        for count in [MOST - 1, MOST, MOST + 1, MOST + 2, 2 * MOST] {
            let characters = random.bytes(count);
            for size in [count, MOST - 5, 255, 1] {
                let chunks: Vec<&[u8]> = characters.chunks(size).collect();
                let sum = count as u64;
                for total in [sum, UNKNOWN, sum - 1, sum + 1] {
                    let mut value = value(total, &chunks);
                    self.value_and_back(&value);
                    self.with_a_long_buffer(&value);
                    self.value(&value[..value.len() - 1]);
                    self.value(&value[..value.len() - 4]);
                    self.value(&value[..value.len() - 5]);
                    value.push(0);
                    self.value(&value);
                }
            }
            let units: Vec<u16> = characters.into_iter().map(unit_of).collect();
            self.text_and_back(&utf16::bytes(&units));
            for place in [0, MOST.min(count) - 1, count - 1] {
                let mut faulty = units.clone();
                faulty[place] = random.pick(&[0x0080, 0x0100, 0xD83D]);
                self.text(&utf16::bytes(&faulty));
            }
            self.text(&[&utf16::bytes(&units)[..], &[0x41]].concat());
        }
    }

    /// Random values and texts of so many characters.
    fn random(&mut self, random: &mut Random, times: usize, counts: RangeInclusive<usize>) {
        for _ in 0..times {
            let count = random.within(*counts.start(), *counts.end());
            self.value_and_back(&random_value(random, count));
            self.text_and_back(&random_text(random, count));
        }
    }

    /// A value with more bytes lent than any label needs.
    fn with_a_long_buffer(&mut self, value: &[u8]) {
        lend(&mut self.read, value, &text_answer(value), &[LONG], station_read_label);
    }
}

/// All sequences of at most `most` of the items.
fn sequences<T: Copy>(items: &[T], most: usize) -> Vec<Vec<T>> {
    let mut all = vec![Vec::new()];
    let mut from = 0;
    for _ in 0..most {
        let longest = from..all.len();
        from = all.len();
        for place in longest {
            all.extend(
                items.iter().map(|item| [&all[place][..], &[*item]].concat()).collect::<Vec<_>>(),
            );
        }
    }
    all
}

/// All ways to cut so many bytes into chunks: the sizes of each.
fn all_sizes(count: usize) -> Vec<Vec<usize>> {
    if count == 0 {
        return vec![Vec::new()];
    }
    let first =
        |size| all_sizes(count - size).into_iter().map(move |rest| [&[size], &rest[..]].concat());
    (1..=count).flat_map(first).collect()
}
