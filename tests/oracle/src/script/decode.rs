//! From bytes to a script: 11 cut, 12 kind, 13 shape, 14 text, at the first bad record and in
//! this order within it.

use super::records::{self, CELL, CHUNK, COLUMN, INFO, LEADING, ROW, SET, TERMINAL, TRAILING};
use super::{Cell, Column, Error, Info, Script, Set};
use crate::refusal::{Answer, KIND, RECORD_NOT_UTF16, SHAPE};
use crate::utf16;

/// What the last record was, which says what may follow it.
#[derive(Clone, Copy, PartialEq, Eq)]
enum After {
    Nothing,
    SetOrColumn,
    Leading,
    TerminalOrInfo,
    Row,
    /// A cell or a chunk of one; whether chunks may follow.
    Cell {
        chunked: bool,
    },
    Trailing,
}

pub fn decode(mut bytes: &[u8]) -> Answer<Script> {
    let mut script = Script::default();
    let mut after = After::Nothing;
    while !bytes.is_empty() {
        let (kind, payload, rest) = records::first(bytes)?;
        if !may_follow(after, kind) {
            return Err(KIND);
        }
        after = take(&mut script, kind, payload)?;
        bytes = rest;
    }
    if script.sets.is_empty() { Err(KIND) } else { Ok(script) }
}

/// One or more sets, each: 1, columns, at most one 7, at most one 8, infos, rows with cells with
/// chunks; then kind 9 records.
fn may_follow(after: After, kind: u16) -> bool {
    let in_set = after != After::Nothing && after != After::Trailing;
    let before_rows = !matches!(after, After::Row | After::Cell { .. });
    match kind {
        SET => after == After::Nothing || in_set,
        COLUMN => after == After::SetOrColumn,
        LEADING => after == After::SetOrColumn,
        TERMINAL => matches!(after, After::SetOrColumn | After::Leading),
        INFO => in_set && before_rows,
        ROW => in_set,
        CELL => matches!(after, After::Row | After::Cell { .. }),
        CHUNK => after == After::Cell { chunked: true },
        TRAILING => after != After::Nothing,
        _ => false,
    }
}

/// Adds the record, which is in order, to the script.
fn take(script: &mut Script, kind: u16, payload: &[u8]) -> Answer<After> {
    match kind {
        SET => {
            script.sets.push(Set { classification: payload.to_vec(), ..Set::default() });
            Ok(After::SetOrColumn)
        }
        COLUMN => {
            let column = column(payload)?;
            script.note_name(&column.name);
            current(script).columns.push(column);
            Ok(After::SetOrColumn)
        }
        LEADING => {
            current(script).leading = Some(error(payload)?);
            Ok(After::Leading)
        }
        TERMINAL => {
            current(script).terminal = Some(error(payload)?);
            Ok(After::TerminalOrInfo)
        }
        INFO => {
            let info = noted_info(script, payload)?;
            current(script).infos.push(info);
            Ok(After::TerminalOrInfo)
        }
        ROW => {
            exactly::<0>(payload)?;
            current(script).rows.push(Vec::new());
            Ok(After::Row)
        }
        CELL => {
            let mut cell = cell(payload)?;
            let chunked = cell.chunks().is_some();
            current_row(script).push(cell);
            Ok(After::Cell { chunked })
        }
        CHUNK => {
            let cell = current_row(script).last_mut().expect("a chunk stands under a cell");
            add_chunk(cell, payload)?;
            script.note_chunk(payload);
            Ok(After::Cell { chunked: true })
        }
        TRAILING => {
            let info = noted_info(script, payload)?;
            script.trailing.push(info);
            Ok(After::Trailing)
        }
        _ => unreachable!("no unknown kind may follow"),
    }
}

fn current(script: &mut Script) -> &mut Set {
    script.sets.last_mut().expect("the record stands in a set")
}

fn current_row(script: &mut Script) -> &mut Vec<Cell> {
    current(script).rows.last_mut().expect("the record stands in a row")
}

fn column(payload: &[u8]) -> Answer<Column> {
    let (type_byte, rest) = payload.split_first().ok_or(SHAPE)?;
    let (collation, name) = rest.split_first_chunk::<5>().ok_or(SHAPE)?;
    if !(1..=8).contains(type_byte) {
        return Err(SHAPE);
    }
    Ok(Column { type_byte: *type_byte, collation: *collation, name: text(name)? })
}

fn error(payload: &[u8]) -> Answer<Error> {
    let (number, rest) = payload.split_first_chunk::<4>().ok_or(SHAPE)?;
    let (severity, message) = rest.split_first().ok_or(SHAPE)?;
    Ok(Error { number: u32::from_le_bytes(*number), severity: *severity, text: text(message)? })
}

fn noted_info(script: &mut Script, payload: &[u8]) -> Answer<Info> {
    let info = info(payload)?;
    script.note_name(&info.server);
    script.note_name(&info.procedure);
    Ok(info)
}

/// Number, state, severity, line, three counts, and exactly the three texts that they count.
fn info(payload: &[u8]) -> Answer<Info> {
    let (fixed, texts) = payload.split_first_chunk::<16>().ok_or(SHAPE)?;
    let length = |at: usize| 2 * usize::from(u16::from_le_bytes([fixed[at], fixed[at + 1]]));
    let (message, server, procedure) = (length(10), length(12), length(14));
    if texts.len() != message + server + procedure {
        return Err(SHAPE);
    }
    let word = |at: usize| u32::from_le_bytes(fixed[at..at + 4].try_into().unwrap());
    Ok(Info {
        number: word(0),
        state: fixed[4],
        severity: fixed[5],
        line: word(6),
        message: text(&texts[..message])?,
        server: text(&texts[message..message + server])?,
        procedure: text(&texts[message + server..])?,
    })
}

fn cell(payload: &[u8]) -> Answer<Cell> {
    let (value, data) = payload.split_first().ok_or(SHAPE)?;
    match value {
        1 => Ok(Cell::TinyInt(u8::from_le_bytes(exactly(data)?))),
        2 => Ok(Cell::SmallInt(i16::from_le_bytes(exactly(data)?))),
        3 => Ok(Cell::Int(i32::from_le_bytes(exactly(data)?))),
        4 => Ok(Cell::BigInt(i64::from_le_bytes(exactly(data)?))),
        5 => Ok(Cell::NVarChar(text(data)?)),
        6..=10 => {
            exactly::<0>(data)?;
            Ok(match value {
                6 => Cell::NVarCharMax(Vec::new()),
                7 => Cell::MaxNull,
                8 => Cell::VarCharMax(Vec::new()),
                9 => Cell::VarBinaryMax(Vec::new()),
                _ => Cell::Null,
            })
        }
        _ => Err(SHAPE),
    }
}

fn exactly<const N: usize>(data: &[u8]) -> Answer<[u8; N]> {
    data.try_into().map_err(|_| SHAPE)
}

/// A chunk of any bytes, of an even length under value 6.
fn add_chunk(cell: &mut Cell, payload: &[u8]) -> Answer<()> {
    if matches!(cell, Cell::NVarCharMax(_)) && !payload.len().is_multiple_of(2) {
        return Err(SHAPE);
    }
    cell.chunks().expect("the cell takes chunks").push(payload.to_vec());
    Ok(())
}

fn text(bytes: &[u8]) -> Answer<String> {
    if !bytes.len().is_multiple_of(2) {
        return Err(SHAPE);
    }
    utf16::text(bytes).ok_or(RECORD_NOT_UTF16)
}
