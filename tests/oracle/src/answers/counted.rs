//! The bytes in which a reply parts from the Rust's, where MS-TDS counts otherwise: the DONEs that end a set
//! get the bit by which it calls their row count valid (document 02, 2026-03), and a column's name that has
//! a surrogate pair is counted in units, not in characters (2026-08).
//!
//! They are found by walking over the Rust's own tokens, from the first to the last: the decoded
//! script says which token comes next, the bytes how long it is. No byte is searched for.

use super::packets::HEADER;
use crate::script::{Cell, Column, Script, Set};

/// Tokens, and the sizes of what is fixed in them.
const COLMETADATA: u8 = 0x81;
const ROW: u8 = 0xD1;
const ERROR: u8 = 0xAA;
const INFO: u8 = 0xAB;
const DONE: u8 = 0xFD;
const DONE_SIZE: usize = 13;
const COLLATION: usize = 5;
/// The type whose length has one byte: integers.
const INTN: u8 = 0x26;
/// The type without a collation whose length has two.
const VARBINARY: u8 = 0xA5;
/// The total of a Max value that is null.
const NO_TOTAL: u64 = u64::MAX;
/// DONE_COUNT (MS-TDS 2.2.7.6): the row count is valid.
const COUNT: u8 = 0x10;
const MORE: u8 = 0x01;

/// Where a packet of the Rust's is changed.
#[derive(Debug, Default, PartialEq)]
pub struct Places {
    /// The status of each set's DONE, and whether a set follows.
    pub statuses: Vec<(usize, bool)>,
    /// The count before each name that has a pair, and the name's units.
    pub names: Vec<(usize, u8)>,
}

/// The Rust's packet of a script that is not refused, with that bit set in the status of each set's
/// DONE, with units before each name that has a pair, and with no other change. Each row count must be
/// the number of the set's rows, and the Rust's count of each name that of its characters.
pub fn counted(script: &Script, mut packet: Vec<u8>) -> Vec<u8> {
    let Places { statuses, names } = places(script, &packet);
    for (place, follows) in statuses {
        assert_eq!(packet[place..place + 2], [if follows { MORE } else { 0 }, 0]);
        packet[place] |= COUNT;
    }
    for (place, units) in names {
        packet[place] = units;
    }
    packet
}

/// The places that are changed.
pub fn places(script: &Script, packet: &[u8]) -> Places {
    let mut found = Places::default();
    if script.is_terminal() {
        return found;
    }
    let mut walk = Walk { bytes: packet, at: HEADER, names: Vec::new() };
    if script.sets[0].leading.is_some() {
        walk.message(ERROR);
        walk.done(0);
    }
    let last = script.sets.len() - 1;
    for (i, set) in script.sets.iter().enumerate() {
        walk.set(set);
        if i == last {
            script.trailing.iter().for_each(|_| walk.message(INFO));
        }
        found.statuses.push((walk.done(set.rows.len()), i != last));
    }
    assert_eq!(walk.at, packet.len(), "the last DONE ends the packet");
    found.names = walk.names;
    found
}

struct Walk<'a> {
    bytes: &'a [u8],
    at: usize,
    names: Vec<(usize, u8)>,
}

impl Walk<'_> {
    fn number(&mut self, size: usize) -> u64 {
        let mut held = [0; 8];
        held[..size].copy_from_slice(&self.bytes[self.at..self.at + size]);
        self.at += size;
        u64::from_le_bytes(held)
    }

    fn token(&mut self, token: u8) {
        assert_eq!(self.number(1), u64::from(token), "the token at byte {}", self.at - 1);
    }

    /// Passes over some bytes whose count stands before them.
    fn sized(&mut self, size: usize) {
        self.at += self.number(size) as usize;
    }

    /// A DONE; answers where its status stands.
    fn done(&mut self, rows: usize) -> usize {
        self.token(DONE);
        let status = self.at;
        self.at += 4;
        assert_eq!(self.number(8), rows as u64, "the row count of the DONE at {}", status - 1);
        assert_eq!(self.at, status - 1 + DONE_SIZE);
        status
    }

    fn message(&mut self, token: u8) {
        self.token(token);
        self.sized(2);
    }

    /// A set up to its rows' end.
    fn set(&mut self, set: &Set) {
        self.token(COLMETADATA);
        assert_eq!(self.number(2), set.columns.len() as u64);
        set.columns.iter().for_each(|column| self.column(column));
        self.at += set.classification.len();
        set.infos.iter().for_each(|_| self.message(INFO));
        for row in &set.rows {
            self.token(ROW);
            row.iter().for_each(|cell| self.cell(cell));
        }
    }

    /// A column: user type, flags, type and its length, collation, name. The Rust counts the name in
    /// characters; its units come from the script.
    fn column(&mut self, column: &Column) {
        self.at += 6;
        self.at += match self.number(1) as u8 {
            INTN => 1,
            VARBINARY => 2,
            _ => 2 + COLLATION,
        };
        let (place, units) = (self.at, column.name.encode_utf16().count());
        let characters = column.name.chars().count();
        assert_eq!(self.number(1), characters as u64, "the count of the name at {place}");
        if units != characters {
            self.names.push((place, units as u8));
        }
        self.at += 2 * units;
    }

    fn cell(&mut self, cell: &Cell) {
        match cell {
            Cell::TinyInt(_) | Cell::SmallInt(_) | Cell::Int(_) | Cell::BigInt(_) | Cell::Null => {
                self.sized(1)
            }
            Cell::NVarChar(_) => self.sized(2),
            _ => self.max_value(),
        }
    }

    /// A Max value: its total, and where it is not null chunks until one of no bytes.
    fn max_value(&mut self) {
        if self.number(8) == NO_TOTAL {
            return;
        }
        loop {
            let start = self.at;
            self.sized(4);
            if self.at == start + 4 {
                return;
            }
        }
    }
}
