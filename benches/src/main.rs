//! Runs one case, for an instruction count or for times.
//!
//! `bench list` prints the cases, each with the group of its export. `bench CASE ours|rust` runs
//! the case's call once to warm up and once within `measured`, and prints the bytes of its input,
//! the bytes of its answer and the answer's sum. `bench CASE time` runs the call on both sides in
//! turn, many times, and prints the nanoseconds of ours and of the Rust's; ours is `-` where the
//! library does not export it. `bench steps` reads the packet on standard input by `station_step`,
//! `bench rpc NUMBER` the procedure call there, with its parameter of a number, `bench capture` the
//! capture there; `bench labels read` reads the event label there, `bench labels write` writes one of
//! the text there.

#[cfg(feature = "capture")]
mod captures;
mod cases;
#[cfg(feature = "labels")]
mod labels;
#[cfg(feature = "rpc")]
mod procedures;
mod region;
mod requests;
mod results;
#[cfg(feature = "result")]
mod steps;

// What the tests against the Rust have: inputs, records and the library's exports.
#[allow(dead_code, unused_imports)]
#[path = "../../tests/oracle/src/answers/mod.rs"]
mod answers;
#[allow(dead_code)]
#[path = "../../tests/oracle/src/inputs/mod.rs"]
mod inputs;
#[allow(dead_code)]
#[path = "../../tests/oracle/src/random.rs"]
mod random;
#[allow(dead_code)]
#[path = "../../tests/oracle/src/refusal.rs"]
mod refusal;
#[allow(dead_code, unused_imports)]
#[path = "../../tests/oracle/src/script/mod.rs"]
mod script;
#[allow(dead_code, unused_macros, unexpected_cfgs)]
#[path = "../../tests/oracle/src/station.rs"]
mod station;
#[allow(dead_code)]
#[path = "../../tests/oracle/src/utf16.rs"]
mod utf16;

// The modules `protocol` and `query_response` of docs/src, as build.rs places them.
include!(concat!(env!("OUT_DIR"), "/rust_modules.rs"));

use cases::{Case, Outcome, Side, cases};
use region::Measure;
use std::process::ExitCode;

const USAGE: &str = "\
bench list
bench CASE ours|rust|time
bench steps
bench rpc NUMBER
bench capture
bench labels read|write";

/// How often the sides take turns. A time is the least of so many medians: whatever else the machine
/// does only adds to it.
const ROUNDS: usize = 41;

fn main() -> ExitCode {
    let words: Vec<String> = std::env::args().skip(1).collect();
    let words: Vec<&str> = words.iter().map(String::as_str).collect();
    let done = match words.as_slice() {
        ["list"] => {
            list();
            Some(())
        }
        #[cfg(feature = "result")]
        ["steps"] => steps::count(),
        #[cfg(feature = "rpc")]
        ["rpc", number] => procedures::count(number),
        #[cfg(feature = "capture")]
        ["capture"] => captures::count(),
        #[cfg(feature = "labels")]
        ["labels", way] => labels::count(way),
        [case, "ours"] => count(case, Side::Ours),
        [case, "rust"] => count(case, Side::Rust),
        [case, "time"] => time(case),
        _ => None,
    };
    if done.is_none() {
        eprintln!("{USAGE}");
        return ExitCode::from(2);
    }
    ExitCode::SUCCESS
}

fn list() {
    for case in cases() {
        println!("{} {}", case.name, case.group);
    }
}

fn find(name: &str) -> Option<Case> {
    cases().into_iter().find(|case| case.name == name)
}

/// None where there is no case of the name, or the library does not export its call.
fn count(name: &str, side: Side) -> Option<()> {
    let Outcome { input, answer, .. } = (find(name)?.run)(side, Measure::Count)?;
    println!("{input} {} {:016X}", answer.len(), sum(&answer));
    Some(())
}

/// None where there is no case of the name.
fn time(name: &str) -> Option<()> {
    let run = find(name)?.run;
    let took = |side| Some(run(side, Measure::Time)?.time);
    let (ours, rust): (Vec<_>, Vec<_>) =
        (0..ROUNDS).map(|_| (took(Side::Ours), took(Side::Rust))).unzip();
    println!("{} {}", shown(ours), shown(rust));
    Some(())
}

/// The least, or `-` where there is none.
fn shown(times: Vec<Option<f64>>) -> String {
    let least = times.into_iter().flatten().reduce(f64::min);
    least.map_or("-".into(), |time| format!("{time:.1}"))
}

/// The FNV-1a sum.
fn sum(bytes: &[u8]) -> u64 {
    bytes.iter().fold(0xCBF2_9CE4_8422_2325, |sum, byte| {
        (sum ^ u64::from(*byte)).wrapping_mul(0x0000_0100_0000_01B3)
    })
}
