//! Captures of requests, by their call for C.

use crate::region::Measure;
use crate::station::station_capture_marks;
use std::io::{Read, stdin};

/// The fewest bytes of a marked record, its head among them (include/station.h).
const MARKED: usize = 10;

/// Counts a call over the capture on standard input, and prints how many records are marked; none
/// where it is refused.
pub fn count() -> Option<()> {
    let mut capture = Vec::new();
    stdin().read_to_end(&mut capture).expect("standard input");
    let mut out = vec![0; capture.len() / MARKED];
    let (marks, _) = Measure::Count.of(|| station_capture_marks(&capture, &mut out));
    println!("{marks}");
    (marks >= 0).then_some(())
}
