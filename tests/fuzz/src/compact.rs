//! The compact form of long inputs: a few bytes say what is repeated, so that the fuzzer reaches
//! texts, names and replies of a border's length by changing two bytes.

use crate::script::records::*;
use crate::wall;

const COLLATION: [u8; 5] = [0x09, 0x04, 0xD0, 0x00, 0x34];
/// The bytes that a record's head has.
const HEAD: usize = 6;

/// Takes numbers and strings off an input; past its end all are 0 and empty.
pub struct Draw<'a> {
    rest: &'a [u8],
    /// How many bytes repetitions may still write.
    room: usize,
}

impl<'a> Draw<'a> {
    pub fn new(input: &'a [u8]) -> Self {
        Self { rest: input, room: wall::MOST / 2 }
    }

    pub fn ended(&self) -> bool {
        self.rest.is_empty()
    }

    /// All bytes that are left.
    pub fn rest(&mut self) -> &'a [u8] {
        std::mem::take(&mut self.rest)
    }

    fn part(&mut self, count: usize) -> &'a [u8] {
        let (part, rest) = self.rest.split_at(count.min(self.rest.len()));
        self.rest = rest;
        part
    }

    fn number<const N: usize>(&mut self) -> [u8; N] {
        let mut bytes = [0; N];
        let part = self.part(N);
        bytes[..part.len()].copy_from_slice(part);
        bytes
    }

    pub fn byte(&mut self) -> u8 {
        u8::from_le_bytes(self.number())
    }

    pub fn u16(&mut self) -> u16 {
        u16::from_le_bytes(self.number())
    }

    pub fn u32(&mut self) -> u32 {
        u32::from_le_bytes(self.number())
    }

    pub fn u64(&mut self) -> u64 {
        u64::from_le_bytes(self.number())
    }

    /// A byte that is the value, or that says how many bytes of it follow.
    pub fn value(&mut self) -> u64 {
        match self.byte() {
            small @ 0..0xF0 => small.into(),
            0xF0..0xF8 => self.u32().into(),
            0xF8..0xFF => self.u64(),
            0xFF => u64::MAX,
        }
    }

    /// A string: a byte whose lower half says how many bytes come as they are, and its next three
    /// bits how many come after them to be repeated, as often as the two bytes after those say.
    pub fn bytes(&mut self) -> Vec<u8> {
        let form = usize::from(self.byte());
        let mut bytes = self.part(form & 0x0F).to_vec();
        let pattern = self.part(form >> 4 & 7);
        if !pattern.is_empty() {
            let times = usize::from(self.u16()).min(self.room / pattern.len());
            self.room -= times * pattern.len();
            bytes.extend(pattern.repeat(times));
        }
        bytes
    }

    /// Records until the input or the room ends.
    pub fn records(&mut self) -> Vec<Record> {
        let mut records = Vec::new();
        while !self.ended() && self.room >= HEAD {
            self.add(&mut records);
        }
        records
    }

    /// One record, its kind in the lower half of a byte, a type or value in the upper half; or
    /// the last records over again.
    fn add(&mut self, records: &mut Vec<Record>) {
        let form = self.byte();
        let upper = form >> 4;
        let record = match u16::from(form & 0x0F) {
            SET if upper == 0 => set(&[]),
            SET => set(&self.bytes()),
            COLUMN => column(upper, COLLATION, &self.bytes()),
            kind @ (INFO | TRAILING) => self.info(kind, upper),
            ROW if upper == 0 => row(),
            CELL => self.cell(upper),
            kind @ (LEADING | TERMINAL) => {
                let (number, severity) = (self.u16(), self.byte());
                error(kind, number.into(), severity, &self.bytes())
            }
            0x0A..=0x0C => return self.again(records),
            0x0D => Record::new(self.u16(), self.bytes()),
            kind => Record::new(kind, self.bytes()),
        };
        self.room = self.room.saturating_sub(HEAD + record.payload.len());
        records.push(record);
    }

    /// An info; where the upper half is not 0, without its last byte.
    fn info(&mut self, kind: u16, upper: u8) -> Record {
        let numbers = (self.u32(), self.byte(), self.byte(), self.u16().into());
        let [message, server, procedure] = [(); 3].map(|()| self.bytes());
        let mut record = info_of(kind, numbers, [&message, &server, &procedure]);
        if upper != 0 {
            record.payload.pop();
        }
        record
    }

    /// A cell with as much data as its value has; of a value above 10, with any.
    fn cell(&mut self, value: u8) -> Record {
        match value {
            1..=4 => cell(value, self.part(1 << (value - 1))),
            6..=10 => cell(value, &[]),
            _ => cell(value, &self.bytes()),
        }
    }

    /// The last records again: how many, and how often.
    fn again(&mut self, records: &mut Vec<Record>) {
        let count = usize::from(self.byte()).min(records.len());
        let last = records[records.len() - count..].to_vec();
        let length: usize = last.iter().map(|record| HEAD + record.payload.len()).sum();
        for _ in 0..self.u16() {
            if count == 0 || length > self.room {
                break;
            }
            self.room -= length;
            records.extend(last.iter().cloned());
        }
    }
}
