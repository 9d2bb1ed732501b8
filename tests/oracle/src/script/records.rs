//! Records: a 4-byte payload length, a 2-byte kind, the payload. Read, and made.

use crate::refusal::{Answer, RECORD_CUT};

/// The kinds of a script.
pub const SET: u16 = 1;
pub const COLUMN: u16 = 2;
pub const INFO: u16 = 3;
pub const ROW: u16 = 4;
pub const CELL: u16 = 5;
pub const CHUNK: u16 = 6;
pub const LEADING: u16 = 7;
pub const TERMINAL: u16 = 8;
pub const TRAILING: u16 = 9;
/// The kinds of a list of routes.
pub const PLAIN_ROUTE: u16 = 0x0011;
pub const DATABASE_ROUTE: u16 = 0x0012;
/// The kind of a list of features.
pub const FEATURE: u16 = 0x0013;
/// The kind of a capture: a request's body.
pub const REQUEST_BODY: u16 = 0x0021;

/// Splits the first record off: its kind, its payload and the bytes after it.
pub fn first(bytes: &[u8]) -> Answer<(u16, &[u8], &[u8])> {
    let (length, rest) = bytes.split_first_chunk::<4>().ok_or(RECORD_CUT)?;
    let (kind, rest) = rest.split_first_chunk::<2>().ok_or(RECORD_CUT)?;
    let length = u32::from_le_bytes(*length) as usize;
    let (payload, rest) = rest.split_at_checked(length).ok_or(RECORD_CUT)?;
    Ok((u16::from_le_bytes(*kind), payload, rest))
}

#[derive(Clone, Debug)]
pub struct Record {
    pub kind: u16,
    pub payload: Vec<u8>,
}

impl Record {
    pub fn new(kind: u16, payload: impl Into<Vec<u8>>) -> Self {
        Self { kind, payload: payload.into() }
    }
}

/// The records as bytes.
pub fn written(records: &[Record]) -> Vec<u8> {
    let mut bytes = Vec::new();
    for Record { kind, payload } in records {
        bytes.extend((payload.len() as u32).to_le_bytes());
        bytes.extend(kind.to_le_bytes());
        bytes.extend(payload);
    }
    bytes
}

pub fn set(classification: &[u8]) -> Record {
    Record::new(SET, classification)
}

pub fn column(type_byte: u8, collation: [u8; 5], name: &[u8]) -> Record {
    Record::new(COLUMN, [&[type_byte][..], &collation, name].concat())
}

/// A kind 3 or 9 record of number 50,000, state 1, severity 10, line 7.
pub fn info(kind: u16, message: &[u8], server: &[u8], procedure: &[u8]) -> Record {
    info_of(kind, (50_000, 1, 10, 7), [message, server, procedure])
}

/// A kind 3 or 9 record of the number, state, severity and line, and the three texts.
pub fn info_of(kind: u16, numbers: (u32, u8, u8, u32), texts: [&[u8]; 3]) -> Record {
    let (number, state, severity, line) = numbers;
    let mut payload = number.to_le_bytes().to_vec();
    payload.extend([state, severity]);
    payload.extend(line.to_le_bytes());
    for text in texts {
        payload.extend(((text.len() / 2) as u16).to_le_bytes());
    }
    payload.extend(texts.concat());
    Record::new(kind, payload)
}

pub fn row() -> Record {
    Record::new(ROW, [])
}

pub fn cell(value: u8, data: &[u8]) -> Record {
    Record::new(CELL, [&[value], data].concat())
}

pub fn chunk(bytes: &[u8]) -> Record {
    Record::new(CHUNK, bytes)
}

/// A kind 7 or 8 record.
pub fn error(kind: u16, number: u32, severity: u8, text: &[u8]) -> Record {
    Record::new(kind, [&number.to_le_bytes()[..], &[severity], text].concat())
}
