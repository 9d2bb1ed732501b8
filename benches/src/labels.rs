//! Event labels, by their calls for C.

use crate::region::Measure;
use crate::station::{station_read_label, station_write_label};
use crate::sum;
use std::io::{Read, stdin};

/// The bytes of the longest answer: a text of 65,535 units.
const ROOM: usize = 2 * 65_535;

/// Counts a call over standard input, a value to read or a text to write, and prints the bytes of
/// its answer and the answer's sum; none where it is refused, or the way is neither.
pub fn count(way: &str) -> Option<()> {
    let call = match way {
        "read" => station_read_label,
        "write" => station_write_label,
        _ => return None,
    };
    let mut given = Vec::new();
    stdin().read_to_end(&mut given).expect("standard input");
    let mut buffer = vec![0; ROOM];
    let (size, _) = Measure::Count.of(|| call(&given, &mut buffer));
    let answer = buffer.get(..usize::try_from(size).ok()?)?;
    println!("{size} {:016X}", sum(answer));
    Some(())
}
