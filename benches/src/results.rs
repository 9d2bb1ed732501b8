//! Replies to scripts, and the room for them: rows of one kind, as many as there is room for.

use crate::answers::counted::counted;
use crate::answers::packets::{HEADER, cut, joined};
use crate::cases::{Case, Outcome, SIZES, Side};
use crate::protocol;
use crate::query_response::{
    ColumnDefinition, ColumnValue, QueryResponse, Row, SqlDataType, SqlDataType::*,
};
use crate::region::Measure;
use crate::script::decode;
use crate::script::records::{Record, cell, chunk, column, row, set, written};
use crate::utf16;
use bytes::BytesMut;

const COLLATION: [u8; 5] = [0x09, 0x04, 0xD0, 0x00, 0x34];

/// The columns of a set and its rows by number.
struct Kind {
    name: &'static str,
    types: &'static [SqlDataType],
    value: fn(number: usize) -> ColumnValue,
}

/// The script of one set without columns.
const BARE: Kind = Kind { name: "a bare set", types: &[], value: |_| ColumnValue::Null };

const KINDS: [Kind; 3] = [
    Kind {
        name: "Ints",
        types: &[Int, Int, Int, Int],
        value: |number| ColumnValue::Int(number as i32 * 1_000_003),
    },
    Kind {
        name: "texts",
        types: &[NVarChar, NVarChar],
        value: |number| ColumnValue::NVarChar(format!("a text of row {number:08}")),
    },
    Kind {
        name: "Max values",
        types: &[NVarCharMax, VarBinaryMax],
        value: |number| match number % 2 {
            0 => ColumnValue::NVarCharMax(vec![vec![number as u16; 40], vec![0x61; 24]]),
            _ => ColumnValue::VarBinaryMax(vec![vec![number as u8; 80], vec![0xA5; 48]]),
        },
    },
];

pub fn replies() -> Vec<Case> {
    let mut cases = vec![Case::new("smallest reply", "result", |side, measure| {
        reply(rows(&BARE, 0), side, measure)
    })];
    for kind in &KINDS {
        for (size, most) in SIZES {
            let name = format!("reply of {}, {size}", kind.name);
            let run = move |side, measure| reply(filled(kind, most), side, measure);
            cases.push(Case::new(name, "result", run));
        }
    }
    for kind in &KINDS {
        for size in [512, 4_096] {
            let name = format!("reply of {} in packets of {size}, 64 KB", kind.name);
            let run = move |side, measure| match side {
                Side::Ours => in_packets(filled(kind, 65_535), size, measure),
                Side::Rust => reply(filled(kind, 65_535), side, measure),
            };
            cases.push(Case::new(name, "result", run));
        }
    }
    cases.extend(rooms());
    cases
}

fn rooms() -> Vec<Case> {
    let mut cases = vec![Case::new("smallest room", "result", |side, measure| {
        room(rows(&BARE, 0), None, side, measure)
    })];
    for kind in &KINDS {
        for (packets, size) in [("", None), (" in packets of 512", Some(512))] {
            let name = format!("room for {}{packets}, 64 KB", kind.name);
            let run = move |side, measure| room(filled(kind, 65_535), size, side, measure);
            cases.push(Case::new(name, "result", run));
        }
    }
    cases
}

/// The room for a reply as one packet or in packets of a size. The Rust has no call for it: it builds the reply. The
/// answer is as many zeros.
fn room(
    response: QueryResponse,
    size: Option<usize>,
    side: Side,
    measure: Measure,
) -> Option<Outcome> {
    let script = script(&response);
    let (room, time) = match side {
        Side::Ours => ours_room(&script, size, measure)?,
        Side::Rust => {
            let (reply, time) = measure.of(|| build(&response));
            (size.map_or(reply.len(), |size| cut(&reply[HEADER..], size).len()), time)
        }
    };
    Some(Outcome { input: script.len(), answer: vec![0; room], time })
}

/// Our packets of a size, beside the Rust's one: the answer is their payload in one packet.
fn in_packets(response: QueryResponse, size: usize, measure: Measure) -> Option<Outcome> {
    let script = script(&response);
    let (packets, time) = ours_in_packets(&script, size, measure)?;
    let payload = joined(&packets);
    let [high, low] = ((HEADER + payload.len()) as u16).to_be_bytes();
    let answer = [&[4, 1, high, low, 0, 0, 1, 0], &payload[..]].concat();
    Some(Outcome { input: script.len(), answer, time })
}

/// The reply on a side. The Rust's gets the status that a set's DONE must have, after it was measured.
fn reply(response: QueryResponse, side: Side, measure: Measure) -> Option<Outcome> {
    let script = script(&response);
    let (answer, time) = match side {
        Side::Ours => ours(&script, measure)?,
        Side::Rust => {
            let (reply, time) = measure.of(|| build(&response));
            let decoded = decode(&script).expect("the script is good");
            (counted(&decoded, reply.to_vec()), time)
        }
    };
    Some(Outcome { input: script.len(), answer, time })
}

fn build(response: &QueryResponse) -> BytesMut {
    protocol::build_query_results(response, &[], &[], &[])
}

/// A set of as many rows as a reply of so many bytes holds.
fn filled(kind: &Kind, most: usize) -> QueryResponse {
    let none = build(&rows(kind, 0)).len();
    let each = build(&rows(kind, 1)).len() - none;
    let response = rows(kind, (most - none) / each);
    assert!(build(&response).len() <= most, "rows of one kind are of one length");
    response
}

fn rows(kind: &Kind, count: usize) -> QueryResponse {
    let width = kind.types.len();
    let columns = (0..).zip(kind.types).map(|(place, data_type)| ColumnDefinition {
        name: format!("column {place}"),
        data_type: *data_type,
        collation: COLLATION,
    });
    let row = |row| Row::new((0..width).map(|place| (kind.value)(row * width + place)).collect());
    QueryResponse {
        columns: columns.collect(),
        rows: (0..count).map(row).collect(),
        info_tokens: Vec::new(),
        leading_error: None,
        terminal_error: None,
        delay: None,
    }
}

/// The script that stands for the set (document 01, 'The script').
fn script(response: &QueryResponse) -> Vec<u8> {
    let mut records = vec![set(&[])];
    for definition in &response.columns {
        let name = utf16::text_bytes(&definition.name);
        records.push(column(type_byte(definition.data_type), definition.collation, &name));
    }
    for values in &response.rows {
        records.push(row());
        values.values.iter().for_each(|value| records.extend(cell_records(value)));
    }
    written(&records)
}

/// 1 to 8 in the order of `SqlDataType`.
fn type_byte(data_type: SqlDataType) -> u8 {
    data_type as u8 + 1
}

fn cell_records(value: &ColumnValue) -> Vec<Record> {
    let max = |value, chunks: Vec<Vec<u8>>| {
        let chunks = chunks.iter().map(|bytes| chunk(bytes));
        std::iter::once(cell(value, &[])).chain(chunks).collect()
    };
    match value {
        ColumnValue::Int(number) => vec![cell(3, &number.to_le_bytes())],
        ColumnValue::NVarChar(text) => vec![cell(5, &utf16::text_bytes(text))],
        ColumnValue::NVarCharMax(chunks) => {
            max(6, chunks.iter().map(|units| utf16::bytes(units)).collect())
        }
        ColumnValue::VarBinaryMax(chunks) => max(9, chunks.clone()),
        other => unreachable!("no kind has {other:?}"),
    }
}

#[cfg(feature = "result")]
fn ours(script: &[u8], measure: Measure) -> Option<(Vec<u8>, f64)> {
    let mut reply = vec![0; 65_535];
    let call = || crate::station::station_build_query_results(script, &mut reply);
    let (length, time) = measure.of(call);
    reply.truncate(length as usize);
    Some((reply, time))
}

#[cfg(feature = "result")]
fn ours_in_packets(script: &[u8], size: usize, measure: Measure) -> Option<(Vec<u8>, f64)> {
    let mut packets = vec![0; 66_575];
    let call =
        || crate::station::station_build_query_results_in_packets(script, size, &mut packets);
    let (length, time) = measure.of(call);
    packets.truncate(length as usize);
    Some((packets, time))
}

#[cfg(feature = "result")]
fn ours_room(script: &[u8], size: Option<usize>, measure: Measure) -> Option<(usize, f64)> {
    use crate::station::{station_room, station_room_in_packets};
    let (room, time) = measure.of(|| match size {
        None => station_room(script),
        Some(size) => station_room_in_packets(script, size),
    });
    Some((room as usize, time))
}

#[cfg(not(feature = "result"))]
fn ours_room(_: &[u8], _: Option<usize>, _: Measure) -> Option<(usize, f64)> {
    None
}

#[cfg(not(feature = "result"))]
fn ours_in_packets(_: &[u8], _: usize, _: Measure) -> Option<(Vec<u8>, f64)> {
    None
}

#[cfg(not(feature = "result"))]
fn ours(_: &[u8], _: Measure) -> Option<(Vec<u8>, f64)> {
    None
}
