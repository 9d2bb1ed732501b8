//! What the Rust answers to a call, in the numbers of document 01.

pub mod capture;
pub mod counted;
pub mod header;
pub mod labels;
pub mod login;
pub mod packets;
pub mod reply;
pub mod request;
pub mod response;
pub mod text;
pub mod windows1252;

/// A part of the input: start and length in bytes.
#[derive(Clone, Copy, Debug, PartialEq, Eq)]
pub struct Part {
    pub start: usize,
    pub length: usize,
}

impl Part {
    /// The bytes of the part.
    pub fn of(self, input: &[u8]) -> &[u8] {
        &input[self.start..self.start + self.length]
    }

    pub fn slots(self) -> [u64; 2] {
        [self.start as u64, self.length as u64]
    }
}
