//! Scripts, decoded from document 01 alone ('The script', 'Who causes which refusal').

pub mod decode;
pub mod fit;
pub mod records;

pub use decode::decode;

use crate::refusal::{EMPTY_CHUNK, LONG_NAME};

/// The most units that a column, server or procedure name may have.
pub const LONGEST_NAME: usize = 255;

#[derive(Clone, Debug, Default)]
pub struct Script {
    pub sets: Vec<Set>,
    pub trailing: Vec<Info>,
    /// 15 or 16 of the first record that holds an empty chunk or a long name.
    first_fault: Option<u8>,
}

#[derive(Clone, Debug, Default)]
pub struct Set {
    pub classification: Vec<u8>,
    pub columns: Vec<Column>,
    pub leading: Option<Error>,
    pub terminal: Option<Error>,
    pub infos: Vec<Info>,
    pub rows: Vec<Vec<Cell>>,
}

#[derive(Clone, Debug)]
pub struct Column {
    /// 1 to 8 in the order of `SqlDataType`.
    pub type_byte: u8,
    pub collation: [u8; 5],
    pub name: String,
}

#[derive(Clone, Debug)]
pub struct Info {
    pub number: u32,
    pub state: u8,
    pub severity: u8,
    pub line: u32,
    pub message: String,
    pub server: String,
    pub procedure: String,
}

#[derive(Clone, Debug)]
pub struct Error {
    pub number: u32,
    pub severity: u8,
    pub text: String,
}

/// A cell in the order of `ColumnValue`; a Max value with its chunks.
#[derive(Clone, Debug)]
pub enum Cell {
    TinyInt(u8),
    SmallInt(i16),
    Int(i32),
    BigInt(i64),
    NVarChar(String),
    NVarCharMax(Vec<Vec<u8>>),
    MaxNull,
    VarCharMax(Vec<Vec<u8>>),
    VarBinaryMax(Vec<Vec<u8>>),
    Null,
}

impl Script {
    /// A terminal script has a kind 8 in its first set, and emits nothing else.
    pub fn is_terminal(&self) -> bool {
        self.sets[0].terminal.is_some()
    }

    /// 15 or 16, whichever stands first in what is emitted. The errors of later sets, which are
    /// not emitted, hold neither.
    pub fn emitted_fault(&self) -> Option<u8> {
        if self.is_terminal() { None } else { self.first_fault }
    }

    fn fault(&mut self, number: u8) {
        self.first_fault.get_or_insert(number);
    }

    fn note_name(&mut self, name: &str) {
        if name.encode_utf16().count() > LONGEST_NAME {
            self.fault(LONG_NAME);
        }
    }

    fn note_chunk(&mut self, chunk: &[u8]) {
        if chunk.is_empty() {
            self.fault(EMPTY_CHUNK);
        }
    }
}

impl Cell {
    /// The chunks of a Max value that is not null.
    fn chunks(&mut self) -> Option<&mut Vec<Vec<u8>>> {
        match self {
            Cell::NVarCharMax(chunks) | Cell::VarCharMax(chunks) | Cell::VarBinaryMax(chunks) => {
                Some(chunks)
            }
            _ => None,
        }
    }
}
