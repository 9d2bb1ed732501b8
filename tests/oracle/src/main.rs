//! Compares the static library `station` with the Rust modules it is a port of.
//!
//! `oracle [quick|large] [GROUP ..] [seed=N] [trace]` compares; `oracle vectors N [seed=N]`
//! prints calls and what the Rust answers, `oracle answers` what it answers to calls on standard
//! input, `oracle tokens N [seed=N]` what scripts emit.

// Where a group is not built in, what only it uses is left over.
#![cfg_attr(
    not(all(
        feature = "header",
        feature = "text",
        feature = "request",
        feature = "login",
        feature = "result",
        feature = "response",
        feature = "packets",
        feature = "capture",
        feature = "labels"
    )),
    allow(dead_code, unused_macros)
)]

mod answers;
#[cfg(test)]
mod cases;
mod compare;
mod groups;
mod hex;
mod inputs;
mod random;
mod refusal;
mod script;
mod station;
mod tokens;
mod utf16;
mod vectors;

// The modules `protocol` and `query_response` of docs/src, as build.rs places them.
include!(concat!(env!("OUT_DIR"), "/rust_modules.rs"));

use groups::{Group, Size, groups};
use std::process::ExitCode;
use std::time::Instant;

const USAGE: &str = "\
oracle [quick|large] [GROUP ..] [seed=N] [trace]
    header, text, request, login, result, response, packets, capture, labels
oracle vectors N [seed=N]
oracle answers
oracle tokens N [seed=N]";
const SEED: u64 = 20_260_101;

fn main() -> ExitCode {
    let words: Vec<String> = std::env::args().skip(1).collect();
    let seed = words.iter().find_map(|word| word.strip_prefix("seed="));
    let seed = seed.map_or(Some(SEED), |seed| seed.parse().ok());
    let words: Vec<&str> =
        words.iter().map(String::as_str).filter(|word| !word.starts_with("seed=")).collect();
    let done = match (seed, words.as_slice()) {
        (None, _) => None,
        (Some(seed), ["vectors", count]) => printed(count, |count| vectors::print(seed, count)),
        (Some(_), ["answers"]) => vectors::answer().then_some(ExitCode::SUCCESS),
        (Some(seed), ["tokens", count]) => printed(count, |count| tokens::print(seed, count)),
        (Some(seed), words) => {
            chosen(words).map(|(large, groups)| compare(Size { large, seed }, &groups))
        }
    };
    done.unwrap_or_else(|| {
        eprintln!("{USAGE}");
        ExitCode::from(2)
    })
}

/// Prints as many as the word says; none where it is no number.
fn printed(count: &str, print: impl Fn(usize)) -> Option<ExitCode> {
    print(count.parse().ok()?);
    Some(ExitCode::SUCCESS)
}

/// The size and the groups that the words choose; none where a word is not known.
fn chosen(words: &[&str]) -> Option<(bool, Vec<(&'static str, Group)>)> {
    let mut large = false;
    let mut named = Vec::new();
    for word in words {
        match *word {
            "quick" => large = false,
            "large" => large = true,
            "trace" => compare::trace(),
            name => named.push(name),
        }
    }
    let built: Vec<(&'static str, Group)> =
        groups().into_iter().filter_map(|(name, group)| Some((name, group?))).collect();
    if let Some(missing) = named.iter().find(|name| !built.iter().any(|(built, _)| built == *name))
    {
        eprintln!("{missing} is no group, or was not built in (--features {missing})");
        return None;
    }
    let groups = built.into_iter().filter(|(name, _)| named.is_empty() || named.contains(name));
    Some((large, groups.collect()))
}

fn compare(size: Size, groups: &[(&str, Group)]) -> ExitCode {
    println!("{} size, seed={}", if size.large { "large" } else { "quick" }, size.seed);
    let (mut compared, mut differences) = (0, 0);
    for (name, group) in groups {
        let start = Instant::now();
        let checks = group(size);
        println!("{name} ({:.1} s)", start.elapsed().as_secs_f64());
        for check in checks {
            println!("  {}", check.line());
            compared += check.compared();
            differences += check.differences;
        }
    }
    println!("{compared} compared, {differences} different");
    if compared > 0 && differences == 0 { ExitCode::SUCCESS } else { ExitCode::FAILURE }
}
