//! What is fuzzed: inputs of the exports, each held against the Rust by the oracle's comparing code.
//!
//! The oracle's modules are taken as they stand in tests/oracle; what is added here are the targets,
//! the compact form of long inputs, memory that ends where it may be read no further, and the
//! mutations that keep an input's shape.

// The oracle's inputs by seed and its runs over them are used in part.
#![allow(dead_code)]

#[path = "../../oracle/src/answers/mod.rs"]
mod answers;
#[path = "../../oracle/src/compare.rs"]
mod compare;
#[path = "../../oracle/src/groups/mod.rs"]
mod groups;
#[path = "../../oracle/src/hex.rs"]
pub mod hex;
#[path = "../../oracle/src/inputs/mod.rs"]
mod inputs;
#[path = "../../oracle/src/random.rs"]
mod random;
#[path = "../../oracle/src/refusal.rs"]
mod refusal;
#[path = "../../oracle/src/script/mod.rs"]
mod script;
#[path = "../../oracle/src/station.rs"]
mod station;
#[path = "../../oracle/src/tokens.rs"]
pub mod tokens;
#[path = "../../oracle/src/utf16.rs"]
mod utf16;

// The modules `protocol` and `query_response` of docs/src, as the oracle's build.rs places them.
include!(concat!(env!("OUT_DIR"), "/rust_modules.rs"));

mod compact;
mod labels;
pub mod mutate;
mod procedures;
mod reading;
mod replies;
mod steps;
pub mod targets;
mod wall;
