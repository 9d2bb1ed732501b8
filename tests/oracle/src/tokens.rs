//! The tokens that fitting scripts emit, as the program `answer` prints those of a packet, a line a
//! script: `SCRIPT => LINES`, the script in hexadecimal, the lines joined by ` | `, `end` last.
//!
//! They come from the decoded script alone (document 01, 'What a script emits'; document 02, 2026-03,
//! for the status of a set's DONE), not from a packet.

use crate::answers::reply::{accepted, packet};
use crate::hex::hex;
use crate::inputs::script::{SMALL, Shape, of_shape, random_script};
use crate::random::Random;
use crate::script::fit::misfits;
use crate::script::records::{self, Record};
use crate::script::{Cell, Column, Error, Info, Script, Set};
use crate::utf16::{self, text_bytes};
use std::collections::HashSet;
use std::io::{BufWriter, Write, stdout};

/// The most bytes of input that the program `answer` takes.
const LONGEST_INPUT: usize = 65_536;

/// A set as wide as one that fits can be; names about 255 units; texts about 8,000 bytes.
const BORDERS: [Shape; 3] = [
    Shape { columns: 128, fits: true, ..SMALL },
    Shape { text: 300, fits: true, ..SMALL },
    Shape { text: 4_000, fits: true, ..SMALL },
];

/// The status bits of a DONE.
const MORE: u16 = 0x0001;
const ERROR: u16 = 0x0002;
const COUNT: u16 = 0x0010;
/// The command of every DONE, and the state and line of every error, which no record holds.
const COMMAND: u16 = 0x00C1;
const ERROR_STATE: u8 = 1;
const ERROR_LINE: u32 = 1;

/// Prints `count` random scripts that fit, no two the same, each with its tokens.
pub fn print(seed: u64, count: usize) {
    let mut random = Random::new(seed, "tokens");
    let mut out = BufWriter::new(stdout().lock());
    let mut printed = HashSet::new();
    while printed.len() < count {
        let (script, lines) = fitting(&mut random);
        if printed.insert(script.clone()) {
            writeln!(out, "{} => {}", hex(&script), lines.join(" | ")).expect("standard output");
        }
    }
    out.flush().expect("standard output");
}

/// A random script that fits, and its tokens.
fn fitting(random: &mut Random) -> (Vec<u8>, Vec<String>) {
    loop {
        let script = records::written(&any_script(random));
        if let Some(lines) = lines(&script) {
            return (script, lines);
        }
    }
}

fn any_script(random: &mut Random) -> Vec<Record> {
    match random.below(64) {
        0 => at_borders(random),
        1..=8 => {
            let shape = random.pick(&BORDERS);
            of_shape(random, shape)
        }
        _ => random_script(random),
    }
}

/// A text of 7,998 or 8,000 bytes under a name of 254 or 255 units.
fn at_borders(random: &mut Random) -> Vec<Record> {
    let collation = random.bytes(5).try_into().unwrap();
    let name = b"n\0".repeat(random.within(254, 255));
    let units = random.within(3_999, 4_000);
    let text = utf16::bytes(&utf16::random_text(random, units));
    vec![
        records::set(&[]),
        records::column(5, collation, &name),
        records::row(),
        records::cell(5, &text),
    ]
}

/// The lines of the script's tokens; none where it is refused or does not fit.
pub fn lines(bytes: &[u8]) -> Option<Vec<String>> {
    let script = accepted(bytes).ok()?;
    let fits = bytes.len() <= LONGEST_INPUT && misfits(&script).is_empty();
    (fits && packet(&script).is_ok()).then(|| emitted(&script))
}

fn emitted(script: &Script) -> Vec<String> {
    let mut lines = Vec::new();
    let first = &script.sets[0];
    if let Some(error) = &first.terminal {
        lines.extend([error_line(error), done_line(ERROR, 0)]);
    } else {
        if let Some(error) = &first.leading {
            lines.extend([error_line(error), done_line(MORE | ERROR, 0)]);
        }
        add_sets(&mut lines, script);
    }
    lines.push("end".to_string());
    lines
}

/// The sets; the trailing infos stand before the last DONE.
fn add_sets(lines: &mut Vec<String>, script: &Script) {
    let last = script.sets.len() - 1;
    for (place, set) in script.sets.iter().enumerate() {
        add_set(lines, set);
        if place == last {
            lines.extend(script.trailing.iter().map(info_line));
        }
        let status = if place == last { COUNT } else { MORE | COUNT };
        lines.push(done_line(status, set.rows.len()));
    }
}

/// A set without its DONE.
fn add_set(lines: &mut Vec<String>, set: &Set) {
    lines.push(format!("81 {}", set.columns.len()));
    lines.extend(set.columns.iter().map(column_line));
    lines.extend(set.infos.iter().map(info_line));
    for row in &set.rows {
        lines.push("D1".to_string());
        lines.extend(row.iter().map(cell_line));
    }
}

/// A column: user type 0 and no flags, which no record holds.
fn column_line(Column { type_byte, collation, name }: &Column) -> String {
    let (code, length) = code_and_length(*type_byte);
    let collation: &[u8] = if (5..=7).contains(type_byte) { collation } else { &[] };
    format!("col 0 0000 {code:02X} {length} {} {}", hex(collation), text_hex(name))
}

/// What the Rust writes for a type byte, in the order of `SqlDataType`.
fn code_and_length(type_byte: u8) -> (u8, u16) {
    match type_byte {
        1 => (0x26, 1),
        2 => (0x26, 2),
        3 => (0x26, 4),
        4 => (0x26, 8),
        5 => (0xE7, 8_000),
        6 => (0xE7, 0xFFFF),
        7 => (0xA7, 0xFFFF),
        8 => (0xA5, 0xFFFF),
        _ => unreachable!("a column's type byte is 1 to 8"),
    }
}

fn error_line(Error { number, severity, text }: &Error) -> String {
    format!("AA {number} {ERROR_STATE} {severity} {ERROR_LINE} {} - -", text_hex(text))
}

fn info_line(info: &Info) -> String {
    let Info { number, state, severity, line, message, server, procedure } = info;
    let [message, server, procedure] = [message, server, procedure].map(|text| text_hex(text));
    format!("AB {number} {state} {severity} {line} {message} {server} {procedure}")
}

fn cell_line(cell: &Cell) -> String {
    match cell {
        Cell::TinyInt(number) => format!("num {number}"),
        Cell::SmallInt(number) => format!("num {number}"),
        Cell::Int(number) => format!("num {number}"),
        Cell::BigInt(number) => format!("num {number}"),
        Cell::NVarChar(text) => format!("part {}", text_hex(text)),
        Cell::NVarCharMax(chunks) | Cell::VarCharMax(chunks) | Cell::VarBinaryMax(chunks) => {
            format!("part {}", hex(&chunks.concat()))
        }
        Cell::MaxNull | Cell::Null => "null".to_string(),
    }
}

fn done_line(status: u16, rows: usize) -> String {
    format!("FD {status:04X} {COMMAND:04X} {rows}")
}

fn text_hex(text: &str) -> String {
    hex(&text_bytes(text))
}
