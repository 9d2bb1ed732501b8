//! The targets by name: what an input stands for, and the calls by which it is held against the Rust or a
//! second reader.

use crate::compact::Draw;
use crate::compare::Check;
use crate::groups::{capture, header, login, packets, request, result, text};
use crate::labels;
use crate::procedures;
use crate::replies;
use crate::script::records;
use crate::steps;
use crate::wall::Wall;

/// script: a script's bytes. records: a script of right lengths, in the compact form. login: a
/// login's body. request: a body or payload for all other readers. response: a choice and arguments.
/// steps: packets, and slots of a position. rpc: a number, and the body of a procedure call. packets: a packet
/// size, two bytes, and a script of right lengths, in the compact form. capture: a capture's bytes. labels: a
/// number of bytes to lend, and a label's value and text, as they are or in the compact form.
pub const NAMES: [&str; 10] = [
    "script", "records", "login", "request", "response", "steps", "rpc", "packets", "capture",
    "labels",
];

pub struct Target {
    name: &'static str,
    walls: [Wall; 3],
}

impl Target {
    /// None where there is no such target.
    pub fn named(name: &str) -> Option<Self> {
        let name = NAMES.into_iter().find(|known| *known == name)?;
        Some(Self { name, walls: [(); 3].map(|()| Wall::new()) })
    }

    /// Holds the answers to the input against the Rust's or a second reader's. Differences are
    /// printed; the counts have them too.
    pub fn compare(&mut self, input: &[u8]) -> Vec<Check> {
        let wall = &mut self.walls[0];
        match self.name {
            "script" => result::compare_one(wall.lend(input)),
            "records" => result::compare_one(wall.lend(&script_of(input))),
            "login" => login::compare_one(wall.lend(input)),
            "request" => read(wall.lend(input)),
            "steps" => steps::compare_one(input, wall),
            "rpc" => procedures::compare_one(input, wall),
            "packets" => in_packets(input, wall),
            "capture" => capture::compare_one(wall.lend(input)),
            "labels" => labels::compare_one(input, &mut self.walls),
            _ => replies::compare_one(input, &mut self.walls),
        }
    }
}

/// A script's reply in packets of a size, and the reply's payload cut.
fn in_packets(input: &[u8], wall: &mut Wall) -> Vec<Check> {
    let mut draw = Draw::new(input);
    let size = usize::from(draw.u16());
    packets::compare_one(wall.lend(&records::written(&draw.records())), size)
}

/// All readers of a client's bytes but the login's.
fn read(bytes: &[u8]) -> Vec<Check> {
    [request::compare_one, header::compare_one, text::compare_one]
        .into_iter()
        .flat_map(|compare| compare(bytes))
        .collect()
}

/// The script that an input of the target stands for, if it stands for one.
pub fn script(target: &str, input: &[u8]) -> Option<Vec<u8>> {
    match target {
        "script" => Some(input.to_vec()),
        "records" => Some(script_of(input)),
        _ => None,
    }
}

/// The script of an input in the compact form.
fn script_of(input: &[u8]) -> Vec<u8> {
    records::written(&Draw::new(input).records())
}
