//! The other replies as the Rust builds them, of arguments as the library takes them.

use super::reply::limited;
use crate::protocol::*;
use crate::query_response::{InfoMessage, LeadingError, TerminalError};
use crate::refusal::*;
use crate::script::LONGEST_NAME;
use crate::script::records::{self, DATABASE_ROUTE, FEATURE, PLAIN_ROUTE};
use crate::utf16;
use bytes::BytesMut;

/// A text argument: 21 where it is odd, 22 where it is not UTF-16.
pub fn argument(bytes: &[u8]) -> Answer<String> {
    if !bytes.len().is_multiple_of(2) {
        return Err(ODD_ARGUMENT);
    }
    utf16::text(bytes).ok_or(ARGUMENT_NOT_UTF16)
}

pub fn features_of(mut list: &[u8]) -> Answer<Vec<(u8, Vec<u8>)>> {
    let mut features = Vec::new();
    while !list.is_empty() {
        let (kind, payload, rest) = records::first(list)?;
        if kind != FEATURE {
            return Err(KIND);
        }
        let (id, data) = payload.split_first().ok_or(SHAPE)?;
        features.push((*id, data.to_vec()));
        list = rest;
    }
    Ok(features)
}

pub fn info_reply(
    numbers: (u32, u8, u8, u32),
    [message, server, procedure]: [&[u8]; 3],
) -> Answer<Vec<u8>> {
    let texts = [argument(message)?, argument(server)?, argument(procedure)?];
    if server.len().max(procedure.len()) > 2 * LONGEST_NAME {
        return Err(LONG_NAME);
    }
    limited(build_info_token(&info_message(numbers, texts)))
}

pub fn info_message(
    numbers: (u32, u8, u8, u32),
    [message, server_name, proc_name]: [String; 3],
) -> InfoMessage {
    let (number, state, severity, line_number) = numbers;
    InfoMessage { number, state, severity, message, server_name, proc_name, line_number }
}

/// The tokens of a leading and of a terminal error.
pub fn error_tokens(number: u32, severity: u8, text: &str) -> (BytesMut, BytesMut) {
    (
        build_leading_error_tokens(&LeadingError::new(number, severity, text)),
        build_terminal_error_tokens(&TerminalError::new(number, severity, text)),
    )
}

/// No acknowledgement.
pub const NO_ACK: u16 = 256;

/// The arguments of a routing login response but for the list of routes.
#[derive(Clone, Copy)]
pub struct Routing<'a> {
    pub host: &'a [u8],
    pub port: u16,
    pub login_ack: bool,
    pub ack: Option<u8>,
    pub ack_before: bool,
}

pub fn routing_reply(routing: Routing, list: &[u8]) -> Answer<Vec<u8>> {
    let Routing { host, port, login_ack, ack, ack_before } = routing;
    let host = argument(host)?;
    let routes = routes_of(list)?;
    let routes: Vec<Option<&str>> = routes.iter().map(Option::as_deref).collect();
    limited(build_routing_login_response(&host, port, &routes, login_ack, ack, ack_before))
}

pub fn routes_of(mut list: &[u8]) -> Answer<Vec<Option<String>>> {
    let mut routes = Vec::new();
    while !list.is_empty() {
        let (kind, payload, rest) = records::first(list)?;
        routes.push(match kind {
            PLAIN_ROUTE if payload.is_empty() => None,
            DATABASE_ROUTE if payload.len().is_multiple_of(2) => {
                Some(utf16::text(payload).ok_or(RECORD_NOT_UTF16)?)
            }
            PLAIN_ROUTE | DATABASE_ROUTE => return Err(SHAPE),
            _ => return Err(KIND),
        });
        list = rest;
    }
    Ok(routes)
}
