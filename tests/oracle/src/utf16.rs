//! UTF-16LE: units and bytes, and texts to compare with.

use crate::random::Random;

/// The whole units in the bytes; an odd last byte is left out.
pub fn units(bytes: &[u8]) -> Vec<u16> {
    bytes.as_chunks::<2>().0.iter().map(|pair| u16::from_le_bytes(*pair)).collect()
}

pub fn bytes(units: &[u16]) -> Vec<u8> {
    units.iter().flat_map(|unit| unit.to_le_bytes()).collect()
}

pub fn text_bytes(text: &str) -> Vec<u8> {
    bytes(&text.encode_utf16().collect::<Vec<u16>>())
}

/// The text, or none where the bytes are odd or not well-formed.
pub fn text(bytes: &[u8]) -> Option<String> {
    if !bytes.len().is_multiple_of(2) {
        return None;
    }
    String::from_utf16(&units(bytes)).ok()
}

/// Units on each side of every border: of UTF-8 lengths, of surrogates, of the range.
pub const BORDER_UNITS: [u16; 18] = [
    0x0000, 0x0020, 0x0041, 0x007F, 0x0080, 0x07FF, 0x0800, 0xD7FF, 0xD800, 0xD801, 0xDBFE, 0xDBFF,
    0xDC00, 0xDC01, 0xDFFE, 0xDFFF, 0xE000, 0xFFFF,
];

/// White space and its neighbours.
pub const BLANK_UNITS: [u16; 16] = [
    0x0008, 0x0009, 0x000D, 0x000E, 0x0020, 0x0085, 0x00A0, 0x1680, 0x2000, 0x200A, 0x200B, 0x2028,
    0x202F, 0x205F, 0x3000, 0xFEFF,
];

/// A well-formed text of exactly `count` units.
pub fn random_text(random: &mut Random, count: usize) -> Vec<u16> {
    let mut text = Vec::with_capacity(count);
    while text.len() < count {
        match random.below(8) {
            0 | 1 => text.push(random.within(0x21, 0x7E) as u16),
            2 => text.push(random.pick(&BLANK_UNITS)),
            3 => text.push(random.within(0x80, 0x7FF) as u16),
            4 => text.push(random.within(0x800, 0xD7FF) as u16),
            5 => text.push(random.within(0xE000, 0xFFFF) as u16),
            6 => text.push(random.pick(&[0x0000, 0x007F, 0xD7FF, 0xE000, 0xFFFF])),
            _ if text.len() + 2 <= count => {
                text.push(random.within(0xD800, 0xDBFF) as u16);
                text.push(random.within(0xDC00, 0xDFFF) as u16);
            }
            _ => {}
        }
    }
    text
}

/// A text of at most `most` units, short ones more often, as bytes.
pub fn random_text_bytes(random: &mut Random, most: usize) -> Vec<u8> {
    let limit = random.within(0, most);
    let count = random.within(0, limit);
    bytes(&random_text(random, count))
}

/// The text with one of its units made a surrogate, or one added: mostly not well-formed.
pub fn spoiled(random: &mut Random, text: &[u16]) -> Vec<u16> {
    let mut units = text.to_vec();
    let surrogate = random.within(0xD800, 0xDFFF) as u16;
    if units.is_empty() || random.one_in(2) {
        let place = random.within(0, units.len());
        units.insert(place, surrogate);
    } else {
        let place = random.below(units.len());
        units[place] = surrogate;
    }
    units
}
