//! Scripts with misfits made on purpose: one, two or three faults in a script of two sets that fits.

use crate::script::records::{Record, cell, column, row, set};
use crate::utf16;

const COLLATION: [u8; 5] = [0x09, 0x04, 0xD0, 0x00, 0x34];
const SETS: usize = 2;
const ROWS: usize = 2;
/// The columns of a set that fits: Int, NVarChar, NVarCharMax.
const TYPES: [u8; 3] = [3, 5, 6];
const TEXT: usize = 1;

/// A fault: what is wrong, and where; and a name with a pair, which is none. At a place that is not there it changes
/// nothing.
#[derive(Clone, Copy, Debug)]
pub enum Fault {
    /// So many columns, and in each row as many cells: 129 and more are too many.
    Columns {
        set: usize,
        count: usize,
    },
    Classification {
        set: usize,
    },
    /// A surrogate pair in a column's name: no fault since request 2026-08.
    Pair {
        set: usize,
        column: usize,
    },
    /// A BigInt, which is of no column's type.
    Value {
        set: usize,
        row: usize,
        column: usize,
    },
    /// A text of 8,002 bytes.
    LongText {
        set: usize,
        row: usize,
    },
    /// Only so many cells of a row.
    Fewer {
        set: usize,
        row: usize,
        cells: usize,
    },
    /// A cell more in a row.
    More {
        set: usize,
        row: usize,
    },
}

/// Every fault that is tried, in the order in which they are made: first those of columns.
pub fn faults() -> Vec<Fault> {
    let mut faults = Vec::new();
    for set in 0..SETS {
        let counts = [0, 128, 129, 130, 300].into_iter();
        faults.extend(counts.map(|count| Fault::Columns { set, count }));
    }
    for set in 0..SETS {
        faults.push(Fault::Classification { set });
        let places = [0, 1, 2, 127, 130].into_iter();
        faults.extend(places.map(|column| Fault::Pair { set, column }));
        for row in 0..ROWS {
            let places = 0..TYPES.len();
            faults.extend(places.map(|column| Fault::Value { set, row, column }));
            faults.push(Fault::LongText { set, row });
            faults.extend([0, 2].map(|cells| Fault::Fewer { set, row, cells }));
            faults.push(Fault::More { set, row });
        }
    }
    faults
}

/// Every choice of one, two or three of the faults, in their order.
pub fn choices() -> Vec<Vec<Fault>> {
    let faults = faults();
    let mut found = Vec::new();
    for first in 0..faults.len() {
        found.push(vec![faults[first]]);
        for second in first + 1..faults.len() {
            found.push(vec![faults[first], faults[second]]);
            for third in &faults[second + 1..] {
                found.push(vec![faults[first], faults[second], *third]);
            }
        }
    }
    found
}

/// The script with these faults.
pub fn with(faults: &[Fault]) -> Vec<Record> {
    let mut parts = [Parts::fitting(TYPES.len()), Parts::fitting(TYPES.len())];
    for fault in faults {
        fault.make(&mut parts);
    }
    parts.into_iter().flat_map(Parts::records).collect()
}

impl Fault {
    fn make(self, sets: &mut [Parts; SETS]) {
        match self {
            Self::Columns { set, count } => sets[set] = Parts::fitting(count),
            Self::Classification { set } => sets[set].classification = vec![0xA3],
            Self::Pair { set, column } => sets[set].name(column, "\u{1F600}"),
            Self::Value { set, row, column } => sets[set].value(row, column, cell(4, &[7; 8])),
            Self::LongText { set, row } => {
                sets[set].value(row, TEXT, cell(5, &b"t\0".repeat(4_001)))
            }
            Self::Fewer { set, row, cells } => sets[set].rows[row].truncate(cells),
            Self::More { set, row } => sets[set].rows[row].push(cell(10, &[])),
        }
    }
}

/// A set's parts.
struct Parts {
    classification: Vec<u8>,
    columns: Vec<Record>,
    rows: Vec<Vec<Record>>,
}

impl Parts {
    /// A set of so many columns that fits, but that 129 and more are too many, and none too few for its rows.
    fn fitting(count: usize) -> Self {
        let types: Vec<u8> = TYPES.into_iter().cycle().take(count).collect();
        let columns = types.iter().map(|type_byte| column(*type_byte, COLLATION, b"n\0")).collect();
        let cells = types.iter().map(|type_byte| fitting_cell(*type_byte)).collect();
        Self { classification: Vec::new(), columns, rows: vec![cells; ROWS] }
    }

    fn name(&mut self, place: usize, name: &str) {
        if let Some(held) = self.columns.get_mut(place) {
            *held = column(held.payload[0], COLLATION, &utf16::text_bytes(name));
        }
    }

    fn value(&mut self, row: usize, place: usize, value: Record) {
        if let Some(held) = self.rows[row].get_mut(place) {
            *held = value;
        }
    }

    fn records(self) -> Vec<Record> {
        let mut records = vec![set(&self.classification)];
        records.extend(self.columns);
        for cells in self.rows {
            records.push(row());
            records.extend(cells);
        }
        records
    }
}

fn fitting_cell(type_byte: u8) -> Record {
    match type_byte {
        3 => cell(3, &[7, 0, 0, 0]),
        5 => cell(5, b"t\0"),
        _ => cell(7, &[]),
    }
}
