//! Stored procedure calls, by their call for C.

use crate::region::Measure;
use declared::{STATION_RPC_SLOTS, station_parse_rpc_request};
use std::io::{Read, stdin};

/// The declarations: the tests against the Rust have none for a call that the Rust does not have.
#[allow(dead_code)]
mod declared {
    include!("../../include/station.rs");
}

/// Counts a call over the request on standard input that asks for the parameter of a number, and
/// prints its slots; none where it is refused, or the number is no number.
pub fn count(number: &str) -> Option<()> {
    let number = number.parse().ok()?;
    let mut body = Vec::new();
    stdin().read_to_end(&mut body).expect("standard input");
    let mut out = [0; STATION_RPC_SLOTS];
    let (code, _) = Measure::Count.of(|| parse(&body, number, &mut out));
    println!("{}", out.map(|slot| slot.to_string()).join(" "));
    (code == 0).then_some(())
}

fn parse(body: &[u8], number: u64, out: &mut [u64]) -> i64 {
    // SAFETY: each pointer goes with the length of its slice, and the two do not overlap.
    unsafe {
        station_parse_rpc_request(body.as_ptr(), body.len(), number, out.as_mut_ptr(), out.len())
    }
}
