//! Captures of requests (document 02, 2026-05), which the Rust does not know: a second reader.

use super::request::too_small;
use crate::refusal::{Answer, KIND};
use crate::script::records::{REQUEST_BODY, first};

/// The numbers of the records whose headers length cannot be, from 0 over all records.
pub fn marks(mut capture: &[u8]) -> Answer<Vec<u64>> {
    let mut marks = Vec::new();
    for number in 0.. {
        if capture.is_empty() {
            break;
        }
        let (kind, body, rest) = first(capture)?;
        if kind != REQUEST_BODY {
            return Err(KIND);
        }
        marks.extend(too_small(body).then_some(number));
        capture = rest;
    }
    Ok(marks)
}
