//! UTF-16LE: well-formed or not, counts, white space.

use super::Size;
use crate::answers::text::{COUNTS, counts, is_whitespace};
use crate::compare::Check;
use crate::hex::hex;
use crate::inputs::text::random_bytes;
use crate::station::{station_is_whitespace, station_text};
use crate::utf16;

pub fn compare(size: Size) -> Vec<Check> {
    vec![white_space(), texts(size)]
}

/// One text and its first unit, for tests/fuzz.
#[allow(dead_code)]
pub fn compare_one(bytes: &[u8]) -> Vec<Check> {
    let mut text = Check::new("station_text");
    compare_text(&mut text, bytes);
    let mut white_space = Check::new("station_is_whitespace");
    if let Some(unit) = utf16::units(bytes).first().copied() {
        let blank = char::from_u32(unit.into()).is_some_and(char::is_whitespace);
        let call = || station_is_whitespace(unit);
        white_space.number(|| format!("{unit:04X}"), Ok(blank.into()), call);
    }
    vec![white_space, text]
}

fn white_space() -> Check {
    let mut check = Check::new("station_is_whitespace");
    for unit in 0..=u16::MAX {
        let blank = is_whitespace(unit).into();
        check.number(|| format!("{unit:04X}"), Ok(blank), || station_is_whitespace(unit));
    }
    check
}

fn texts(size: Size) -> Check {
    let mut check = Check::new("station_text");
    let mut random = size.random("text");
    every_short_text(&mut check);
    texts_of_border_units(&mut check);
    for _ in 0..size.count(100_000, 4_000_000) {
        compare_text(&mut check, &random_bytes(&mut random, 24));
    }
    for _ in 0..size.count(50, 2_000) {
        compare_text(&mut check, &random_bytes(&mut random, 40_000));
    }
    check
}

/// All byte strings of up to two bytes: none, one odd byte, every unit.
fn every_short_text(check: &mut Check) {
    compare_text(check, &[]);
    for first in 0..=0xFF {
        compare_text(check, &[first]);
        for second in 0..=0xFF {
            compare_text(check, &[first, second]);
        }
    }
}

/// Every unit beside every border unit, and every three and four border units; each with an odd
/// byte more at times.
fn texts_of_border_units(check: &mut Check) {
    let borders = utf16::BORDER_UNITS;
    for unit in 0..=u16::MAX {
        for border in borders {
            compare_text(check, &utf16::bytes(&[unit, border]));
            compare_text(check, &utf16::bytes(&[border, unit]));
        }
    }
    for one in borders {
        for two in borders {
            for three in borders {
                let bytes = utf16::bytes(&[one, two, three]);
                compare_text(check, &bytes);
                compare_text(check, &[&bytes[..], &[0x41]].concat());
                for four in borders {
                    compare_text(check, &utf16::bytes(&[one, two, three, four]));
                }
            }
        }
    }
}

fn compare_text(check: &mut Check, bytes: &[u8]) {
    let answer = counts(bytes).map(|counts| (0, counts.to_vec()));
    check.slots(|| hex(bytes), &answer, COUNTS, |out| station_text(bytes, out));
}
