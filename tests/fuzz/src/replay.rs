//! Compares stored inputs once, without libFuzzer. A file holds a line for each input, in hexadecimal.
//!
//! `replay TARGET FILE` prints for each function what tests/oracle prints, and how many inputs there
//! were. `replay scripts TARGET FILE` prints the scripts that the inputs stand for, in hexadecimal, and
//! `replay tokens TARGET FILE` the tokens of those that fit, as tests/oracle does.

use fuzz::hex::{hex, unhex};
use fuzz::targets::{Target, script};
use fuzz::tokens;
use std::collections::BTreeMap;
use std::collections::btree_map::Entry;
use std::fs;
use std::process::ExitCode;

fn main() -> ExitCode {
    let words: Vec<String> = std::env::args().skip(1).collect();
    let words: Vec<&str> = words.iter().map(String::as_str).collect();
    let done = match words.as_slice() {
        ["scripts", target, file] => Some(print(target, file, |script| Some(hex(script)))),
        ["tokens", target, file] => Some(print(target, file, tokens_line)),
        [target, file] => Target::named(target).map(|found| replay(target, found, file)),
        _ => None,
    };
    done.unwrap_or_else(|| {
        eprintln!("replay [scripts|tokens] TARGET FILE");
        ExitCode::from(2)
    })
}

fn inputs(file: &str) -> Vec<Vec<u8>> {
    let text = fs::read_to_string(file).unwrap_or_else(|error| panic!("{file}: {error}"));
    text.lines().map(unhex).collect()
}

fn replay(name: &str, mut target: Target, file: &str) -> ExitCode {
    let inputs = inputs(file);
    let mut functions = BTreeMap::new();
    for check in inputs.iter().flat_map(|input| target.compare(input)) {
        match functions.entry(check.name()) {
            Entry::Vacant(place) => {
                place.insert(check);
            }
            Entry::Occupied(mut place) => place.get_mut().add(&check),
        }
    }
    for check in functions.values() {
        println!("  {}", check.line());
    }
    let compared: u64 = functions.values().map(|check| check.compared()).sum();
    let differences: u64 = functions.values().map(|check| check.differences).sum();
    println!("{name}: {} inputs, {compared} compared, {differences} different", inputs.len());
    if compared > 0 && differences == 0 { ExitCode::SUCCESS } else { ExitCode::FAILURE }
}

/// Prints what is said of each input's script.
fn print(target: &str, file: &str, line: fn(&[u8]) -> Option<String>) -> ExitCode {
    for script in inputs(file).iter().filter_map(|input| script(target, input)) {
        if let Some(line) = line(&script) {
            println!("{line}");
        }
    }
    ExitCode::SUCCESS
}

/// The script and its tokens, if it fits.
fn tokens_line(script: &[u8]) -> Option<String> {
    Some(format!("{} => {}", hex(script), tokens::lines(script)?.join(" | ")))
}
