//! The reply reader by its calls for C.

use crate::region::Measure;
use crate::station::{station_fresh, station_step};
use std::io::{Read, stdin};

/// The slots of a position and of a step (include/station.h).
const POSITION: usize = 134;
const TOKEN: usize = 11;

/// Counts a run over the packet on standard input, and prints how many tokens it has; none where it does not
/// come to the end.
pub fn count() -> Option<()> {
    let mut packet = Vec::new();
    stdin().read_to_end(&mut packet).expect("standard input");
    let (tokens, _) = Measure::Count.of(|| tokens(&packet));
    println!("{}", tokens?);
    Some(())
}

fn tokens(packet: &[u8]) -> Option<usize> {
    let (mut position, mut token) = ([0; POSITION], [0; TOKEN]);
    station_fresh(&mut position);
    for tokens in 0.. {
        match station_step(packet, &mut position, &mut token) {
            1 => {}
            0 => return Some(tokens),
            _ => return None,
        }
    }
    None
}
