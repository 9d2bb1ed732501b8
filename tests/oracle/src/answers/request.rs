//! Requests as the Rust reads them. Its texts are held against the part they stand in.
//!
//! The Rust accepts headers lengths of 0 to 3. We refuse them (document 02, 2026-05), so that its
//! answers to batches and transaction requests are compared for lengths from 4 up.

use super::Part;
use crate::protocol::{self, ProtocolError};
use crate::refusal::*;
use crate::utf16;

/// Whether the headers length is there and cannot hold its own four bytes.
pub fn too_small(body: &[u8]) -> bool {
    body.first_chunk().is_some_and(|length| u32::from_le_bytes(*length) < 4)
}

/// The trimmed text. The start is trimmed first: a blank text is the empty part at its end.
pub fn batch(body: &[u8]) -> Answer<Part> {
    if too_small(body) {
        return Err(HEADERS_TOO_SMALL);
    }
    let text = protocol::parse_sql_batch(body).map_err(batch_refusal)?;
    let headers = u32::from_le_bytes(body[..4].try_into().unwrap()) as usize;
    let whole = String::from_utf16(&utf16::units(&body[headers..])).unwrap();
    let blank = &whole[..whole.len() - whole.trim_start().len()];
    let part = Part {
        start: headers + 2 * blank.encode_utf16().count(),
        length: 2 * text.encode_utf16().count(),
    };
    assert_eq!(part.of(body), utf16::text_bytes(&text), "the part is the Rust's text");
    Ok(part)
}

fn batch_refusal(error: ProtocolError) -> u8 {
    match message(error).as_str() {
        "Empty SQL batch" => EMPTY_BATCH,
        "Invalid SQL batch format" => SHORT_BATCH,
        "Invalid ALL_HEADERS length" => HEADERS_PAST_END,
        "Invalid UTF-16 in SQL batch" => BATCH_NOT_UTF16,
        other => panic!("a batch error without a number: {other}"),
    }
}

pub fn transaction(body: &[u8]) -> Answer<u16> {
    if too_small(body) {
        return Err(HEADERS_TOO_SMALL);
    }
    protocol::parse_transaction_manager_request(body).ok_or(NO_REQUEST_TYPE)
}

/// Descriptor and count, or none.
pub fn descriptor(body: &[u8]) -> Option<(u64, u32)> {
    protocol::parse_transaction_descriptor_header(body)
}

pub fn fedauth(payload: &[u8]) -> Answer<Part> {
    let token = protocol::parse_fedauth_token(payload).map_err(fedauth_refusal)?;
    let part = Part { start: 8, length: token.len() };
    assert_eq!(part.of(payload), token, "the part is the Rust's token");
    Ok(part)
}

fn fedauth_refusal(error: ProtocolError) -> u8 {
    let text = message(error);
    match text.split(':').next() {
        Some("FedAuthToken packet too short") => SHORT_TOKEN_MESSAGE,
        Some("FedAuthToken payload length mismatch") => OUTER_LENGTH,
        Some("FedAuthToken inner length mismatch") => INNER_LENGTH,
        _ => panic!("a token error without a number: {text}"),
    }
}

fn message(error: ProtocolError) -> String {
    match error {
        ProtocolError::Protocol(text) => text,
        other => panic!("a request error without a number: {other}"),
    }
}
