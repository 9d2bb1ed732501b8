//! The reply to a script: decoded here, written by the Rust but for the status of each set's DONE and the
//! count of each name that has a surrogate pair.

use super::counted::counted;
use crate::protocol;
use crate::query_response as rust;
use crate::refusal::{Answer, LONG_RESULT};
use crate::script::{self, Cell, Column, Error, Info, Script, Set};
use bytes::BytesMut;

/// The longest packet that its header can tell the length of, and the most bytes of tokens.
pub const LONGEST_RESULT: usize = 65_535;

/// The packet of a script, or the script's refusal. A lent buffer may still be too short for it.
pub fn reply(script: &[u8]) -> Answer<Vec<u8>> {
    packet(&accepted(script)?)
}

/// The script, if it is not refused for what its records hold.
pub fn accepted(script: &[u8]) -> Answer<Script> {
    let script = script::decode(script)?;
    match script.emitted_fault() {
        Some(number) => Err(number),
        None => Ok(script),
    }
}

/// The packet of a script that is accepted but for its length.
pub fn packet(script: &Script) -> Answer<Vec<u8>> {
    limited(rust_packet(script)).map(|packet| counted(script, packet))
}

/// What the Rust builds of the script, too long or not.
pub fn rust_packet(script: &Script) -> BytesMut {
    let (first, following) = script.sets.split_first().expect("a script has a set");
    let following: Vec<rust::ResultSetResponse> = following
        .iter()
        .map(|set| rust::ResultSetResponse::new(response(set), set.classification.clone()))
        .collect();
    protocol::build_query_results(
        &response(first),
        &first.classification,
        &following,
        &infos(&script.trailing),
    )
}

/// The packet by the Rust's narrowings, of a script that holds no more than they take: one set, and
/// nothing else, trailing infos, or those and a classification.
pub fn narrow(script: &Script) -> Answer<Vec<u8>> {
    let packet = protocol::build_query_result(&response(&script.sets[0]));
    limited(packet).map(|packet| counted(script, packet))
}

pub fn trailing(script: &Script) -> Answer<Vec<u8>> {
    let (set, infos) = (&script.sets[0], infos(&script.trailing));
    let packet = protocol::build_query_result_with_trailing_info(&response(set), &infos);
    limited(packet).map(|packet| counted(script, packet))
}

pub fn extras(script: &Script) -> Answer<Vec<u8>> {
    let (set, infos) = (&script.sets[0], infos(&script.trailing));
    let packet =
        protocol::build_query_result_with_extras(&response(set), &set.classification, &infos);
    limited(packet).map(|packet| counted(script, packet))
}

/// The bytes, if they are not too many.
pub fn limited(bytes: impl AsRef<[u8]>) -> Answer<Vec<u8>> {
    let bytes = bytes.as_ref();
    if bytes.len() > LONGEST_RESULT { Err(LONG_RESULT) } else { Ok(bytes.to_vec()) }
}

fn response(set: &Set) -> rust::QueryResponse {
    rust::QueryResponse {
        columns: set.columns.iter().map(column).collect(),
        rows: set.rows.iter().map(|row| rust::Row::new(row.iter().map(value).collect())).collect(),
        info_tokens: infos(&set.infos),
        leading_error: set.leading.as_ref().map(|Error { number, severity, text }| {
            rust::LeadingError::new(*number, *severity, text)
        }),
        terminal_error: set.terminal.as_ref().map(|Error { number, severity, text }| {
            rust::TerminalError::new(*number, *severity, text)
        }),
        delay: None,
    }
}

fn column(column: &Column) -> rust::ColumnDefinition {
    use rust::SqlDataType::*;
    let types = [TinyInt, SmallInt, Int, BigInt, NVarChar, NVarCharMax, VarCharMax, VarBinaryMax];
    rust::ColumnDefinition {
        name: column.name.clone(),
        data_type: types[usize::from(column.type_byte) - 1],
        collation: column.collation,
    }
}

fn value(cell: &Cell) -> rust::ColumnValue {
    use rust::ColumnValue::*;
    match cell {
        Cell::TinyInt(number) => TinyInt(*number),
        Cell::SmallInt(number) => SmallInt(*number),
        Cell::Int(number) => Int(*number),
        Cell::BigInt(number) => BigInt(*number),
        Cell::NVarChar(text) => NVarChar(text.clone()),
        Cell::NVarCharMax(chunks) => {
            NVarCharMax(chunks.iter().map(|chunk| crate::utf16::units(chunk)).collect())
        }
        Cell::MaxNull => NVarCharMaxNull,
        Cell::VarCharMax(chunks) => VarCharMax(chunks.clone()),
        Cell::VarBinaryMax(chunks) => VarBinaryMax(chunks.clone()),
        Cell::Null => Null,
    }
}

fn infos(infos: &[Info]) -> Vec<rust::InfoMessage> {
    infos.iter().map(info).collect()
}

pub fn info(info: &Info) -> rust::InfoMessage {
    rust::InfoMessage {
        number: info.number,
        state: info.state,
        severity: info.severity,
        message: info.message.clone(),
        server_name: info.server.clone(),
        proc_name: info.procedure.clone(),
        line_number: info.line,
    }
}
