//! The cases.

use crate::region::Measure;
use crate::{requests, results};

/// The most bytes of an input or a reply, by the names of the sizes.
pub const SIZES: [(&str, usize); 4] =
    [("1 KB", 1_024), ("4 KB", 4_096), ("16 KB", 16_384), ("64 KB", 65_535)];

#[derive(Clone, Copy, PartialEq, Eq)]
pub enum Side {
    Ours,
    Rust,
}

pub struct Case {
    pub name: String,
    /// The group of the export, which is the feature that it is called under.
    pub group: &'static str,
    /// None where the library does not export the call.
    pub run: Box<dyn Fn(Side, Measure) -> Option<Outcome>>,
}

/// The bytes of an input, the answer as bytes that must be the same on both sides, and the
/// nanoseconds of a call where time was taken.
pub struct Outcome {
    pub input: usize,
    pub answer: Vec<u8>,
    pub time: f64,
}

impl Case {
    pub fn new(
        name: impl Into<String>,
        group: &'static str,
        run: impl Fn(Side, Measure) -> Option<Outcome> + 'static,
    ) -> Self {
        Self { name: name.into(), group, run: Box::new(run) }
    }
}

pub fn cases() -> Vec<Case> {
    let mut cases = requests::batches();
    cases.extend(requests::logins());
    cases.extend(results::replies());
    cases
}
