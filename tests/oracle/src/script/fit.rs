//! Which scripts fit (document 01: their replies are read back whole), every misfit of one, and its first.

use super::{Cell, Column, Script, Set};
use crate::utf16;

/// The most columns of a set that fits. Of more than these, the one after them is the misfit.
const MOST_COLUMNS: usize = 128;
/// The most bytes of a text of value 5 that fits.
const LONGEST_TEXT: usize = 8_000;

/// A misfit as the library answers it: kind, set, row, column, 0 where there is none.
pub type Misfit = [u64; 4];
const CLASSIFICATION: u64 = 1;
const COLUMN: u64 = 2;
const CELL: u64 = 3;

/// The first of some misfits, whatever their order (document 02, 2026-06): by set; in a set the classification, then
/// columns, then cells by row and column.
pub fn first(misfits: &[Misfit]) -> Option<Misfit> {
    misfits.iter().copied().min_by_key(|[kind, set, row, column]| [*set, *kind, *row, *column])
}

/// All misfits of the script; one that has none fits. A terminal script emits no set, so it fits.
pub fn misfits(script: &Script) -> Vec<Misfit> {
    if script.is_terminal() {
        return Vec::new();
    }
    let of_set = |(number, set)| set_misfits(number, set);
    (0u64..).zip(&script.sets).flat_map(of_set).collect()
}

fn set_misfits(number: u64, set: &Set) -> Vec<Misfit> {
    let mut found = Vec::new();
    if !set.classification.is_empty() {
        found.push([CLASSIFICATION, number, 0, 0]);
    }
    if set.columns.len() > MOST_COLUMNS {
        found.push([COLUMN, number, 0, MOST_COLUMNS as u64]);
    }
    for (row, cells) in (0u64..).zip(&set.rows) {
        found.extend(row_misfits(&set.columns, cells).map(|cell| [CELL, number, row, cell as u64]));
    }
    found
}

/// The cells of a row that are not of their column's type, and the smaller count where cells and
/// columns differ in number or there is no column.
fn row_misfits<'a>(columns: &'a [Column], cells: &'a [Cell]) -> impl Iterator<Item = usize> + 'a {
    let both = columns.len().min(cells.len());
    let counts = columns.len() != cells.len() || columns.is_empty();
    (0..both)
        .filter(|place| !goes_with(&cells[*place], columns[*place].type_byte))
        .chain(counts.then_some(both))
}

fn goes_with(cell: &Cell, type_byte: u8) -> bool {
    match cell {
        Cell::TinyInt(_) => type_byte == 1,
        Cell::SmallInt(_) => type_byte == 2,
        Cell::Int(_) => type_byte == 3,
        Cell::BigInt(_) => type_byte == 4,
        Cell::NVarChar(text) => type_byte == 5 && utf16::text_bytes(text).len() <= LONGEST_TEXT,
        Cell::NVarCharMax(_) => type_byte == 6,
        Cell::MaxNull => (6..=8).contains(&type_byte),
        Cell::VarCharMax(_) => type_byte == 7,
        Cell::VarBinaryMax(_) => type_byte == 8,
        Cell::Null => (1..=4).contains(&type_byte),
    }
}
