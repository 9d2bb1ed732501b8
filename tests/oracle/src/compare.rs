//! Calls with lent memory, held against the answers they must give, and counts of them.
//!
//! Lent memory is filled with a pattern and has guards on both sides: what a call must not
//! write is found unchanged or is a difference.

use crate::hex::hex;
use crate::random::Random;
use crate::refusal::{Answer, SHORT_BUFFER};
use std::collections::BTreeMap;
use std::sync::LazyLock;
use std::sync::atomic::{AtomicBool, AtomicUsize, Ordering::Relaxed};

const GUARD: usize = 16;
const PATTERN_BYTES: usize = 1 << 18;
const PATTERN_SLOTS: usize = 1 << 14;
/// Differences that are printed, in all and of one function.
const PRINTED_AT_MOST: usize = 20;
const PRINTED_OF_ONE: u64 = 5;

static PATTERN: LazyLock<(Vec<u8>, Vec<u64>)> = LazyLock::new(|| {
    let mut random = Random::new(0, "pattern");
    let bytes = random.bytes(PATTERN_BYTES);
    (bytes, (0..PATTERN_SLOTS).map(|_| random.next()).collect())
});
static PRINTED: AtomicUsize = AtomicUsize::new(0);
static TRACED: AtomicBool = AtomicBool::new(false);

/// From here on every input is written to standard error before its call.
pub fn trace() {
    TRACED.store(true, Relaxed);
}

/// What a call must answer and leave at the front of its lent bytes and slots.
#[derive(Clone, Copy)]
pub struct Expected<'a> {
    pub code: i64,
    pub bytes: &'a [u8],
    pub slots: &'a [u64],
}

impl Expected<'_> {
    pub fn refused(number: u8) -> Self {
        Self { code: -i64::from(number), bytes: &[], slots: &[] }
    }

    pub fn number(code: i64) -> Self {
        Self { code, bytes: &[], slots: &[] }
    }
}

/// One compared function and its counts.
pub struct Check {
    name: &'static str,
    compared: u64,
    accepted: u64,
    refused: BTreeMap<i64, u64>,
    pub differences: u64,
    turn: usize,
    lent: Vec<u8>,
    slots: Vec<u64>,
}

impl Check {
    pub fn new(name: &'static str) -> Self {
        Self {
            name,
            compared: 0,
            accepted: 0,
            refused: BTreeMap::new(),
            differences: 0,
            turn: 0,
            lent: Vec::new(),
            slots: Vec::new(),
        }
    }

    /// A call without lent memory.
    pub fn number(
        &mut self,
        input: impl Fn() -> String,
        answer: Answer<i64>,
        call: impl FnOnce() -> i64,
    ) {
        let expected = answer.map_or_else(Expected::refused, Expected::number);
        self.call(input, (0, 0), expected, |_, _| call());
    }

    /// A call that writes a reply to a lent buffer: exact, longer, one short and none lent; for
    /// a refused call none, a short one and at times a long one.
    pub fn buffer(
        &mut self,
        input: impl Fn() -> String,
        answer: &Answer<Vec<u8>>,
        call: impl Fn(&mut [u8]) -> i64,
    ) {
        self.turn += 1;
        let long = self.turn.is_multiple_of(16);
        let mut lend =
            |size, expected| self.call(&input, (size, 0), expected, |bytes, _| call(bytes));
        match answer {
            Ok(reply) => {
                let whole = Expected { code: reply.len() as i64, bytes: reply, slots: &[] };
                lend(reply.len(), whole);
                lend(reply.len() + 1 + reply.len() % 37, whole);
                if !reply.is_empty() {
                    lend(reply.len() - 1, Expected::refused(SHORT_BUFFER));
                    lend(0, Expected::refused(SHORT_BUFFER));
                }
            }
            Err(number) => {
                lend(0, Expected::refused(*number));
                lend(80, Expected::refused(*number));
                if long {
                    lend(66_000, Expected::refused(*number));
                }
            }
        }
    }

    /// A call that writes its answer to slots: exactly as many as needed, more, and fewer.
    /// Where nothing is to be written, fewer slots may be refused or not.
    pub fn slots(
        &mut self,
        input: impl Fn() -> String,
        answer: &Answer<(i64, Vec<u64>)>,
        needed: usize,
        call: impl Fn(&mut [u64]) -> i64,
    ) {
        self.turn += 1;
        let fewer = self.turn % needed;
        let expected = match answer {
            Ok((code, slots)) => Expected { code: *code, bytes: &[], slots },
            Err(number) => Expected::refused(*number),
        };
        let mut short = expected;
        if answer.as_ref().is_ok_and(|(_, slots)| {
            !slots.is_empty() || call(&mut vec![0; fewer]) == -i64::from(SHORT_BUFFER)
        }) {
            short = Expected::refused(SHORT_BUFFER);
        }
        for (size, expected) in [(needed, expected), (needed + 3, expected), (fewer, short)] {
            self.call(&input, (0, size), expected, |_, slots| call(slots));
        }
    }

    /// One call with so many lent bytes and slots.
    pub fn call(
        &mut self,
        input: impl Fn() -> String,
        (bytes, slots): (usize, usize),
        expected: Expected,
        call: impl FnOnce(&mut [u8], &mut [u64]) -> i64,
    ) {
        if TRACED.load(Relaxed) {
            eprintln!("{} {} lent {bytes} bytes, {slots} slots", self.name, input());
        }
        let place = self.compared as usize % 4096;
        refill(&mut self.lent, &PATTERN.0[place..], bytes);
        refill(&mut self.slots, &PATTERN.1[place % 64..], slots);
        let code =
            call(&mut self.lent[GUARD..GUARD + bytes], &mut self.slots[GUARD..GUARD + slots]);
        self.count(expected.code);
        let same = code == expected.code
            && left(&self.lent, &PATTERN.0[place..], expected.bytes)
            && left(&self.slots, &PATTERN.1[place % 64..], expected.slots);
        if !same {
            self.difference(input, code, (bytes, slots), place, expected);
        }
    }

    fn count(&mut self, code: i64) {
        self.compared += 1;
        if code < 0 {
            *self.refused.entry(-code).or_default() += 1;
        } else {
            self.accepted += 1;
        }
    }

    fn difference(
        &mut self,
        input: impl Fn() -> String,
        code: i64,
        lent: (usize, usize),
        place: usize,
        expected: Expected,
    ) {
        self.differences += 1;
        if self.differences > PRINTED_OF_ONE || PRINTED.fetch_add(1, Relaxed) >= PRINTED_AT_MOST {
            return;
        }
        let bytes = described(&self.lent, &PATTERN.0[place..], hex);
        let slots = described(&self.slots, &PATTERN.1[place % 64..], |slots| format!("{slots:?}"));
        println!("DIFFERENCE in {}, {} bytes and {} slots lent", self.name, lent.0, lent.1);
        println!("  input   {}", input());
        println!("  station {code}, bytes {bytes}, slots {slots}");
        println!(
            "  oracle  {}, bytes {}, slots {:?}",
            expected.code,
            hex(expected.bytes),
            expected.slots
        );
    }

    /// Adds the counts of another run of the function, for tests/fuzz.
    #[allow(dead_code)]
    pub fn add(&mut self, other: &Self) {
        assert_eq!(self.name, other.name, "counts of one function");
        self.compared += other.compared;
        self.accepted += other.accepted;
        self.differences += other.differences;
        for (number, times) in &other.refused {
            *self.refused.entry(*number).or_default() += times;
        }
    }

    #[allow(dead_code)]
    pub fn name(&self) -> &'static str {
        self.name
    }

    /// The line of the function.
    pub fn line(&self) -> String {
        let refused: Vec<String> =
            self.refused.iter().map(|(number, times)| format!("{number}: {times}")).collect();
        let refused = if refused.is_empty() { "none".to_string() } else { refused.join(", ") };
        let wrong = match self.differences {
            0 => String::new(),
            times => format!(" DIFFERENT: {times}"),
        };
        format!(
            "{}: {} compared (accepted {}; refused {refused}){wrong}",
            self.name, self.compared, self.accepted
        )
    }

    pub fn compared(&self) -> u64 {
        self.compared
    }
}

/// Makes the memory the pattern, with room for `size` between the guards.
fn refill<T: Copy>(memory: &mut Vec<T>, pattern: &[T], size: usize) {
    memory.clear();
    memory.extend_from_slice(&pattern[..GUARD + size + GUARD]);
}

/// Whether the memory is the pattern with `written` at the front of what was lent.
fn left<T: PartialEq>(memory: &[T], pattern: &[T], written: &[T]) -> bool {
    let end = GUARD + written.len();
    memory.len() >= end + GUARD
        && memory[..GUARD] == pattern[..GUARD]
        && memory[GUARD..end] == *written
        && memory[end..] == pattern[end..memory.len()]
}

/// The lent memory up to its last change, and whether a guard was written.
fn described<T: PartialEq>(memory: &[T], pattern: &[T], show: impl Fn(&[T]) -> String) -> String {
    let lent = GUARD..memory.len() - GUARD;
    let last = lent.clone().rev().find(|place| memory[*place] != pattern[*place]);
    let written = last.map_or("unchanged".to_string(), |last| show(&memory[GUARD..=last]));
    let guards = memory[..GUARD] == pattern[..GUARD]
        && memory[lent.end..] == pattern[lent.end..memory.len()];
    if guards { written } else { format!("{written} AND PAST THE LENT MEMORY") }
}

#[cfg(test)]
mod tests {
    use super::*;

    fn input() -> String {
        "test".to_string()
    }

    /// Whether a buffer call that must write `AB` passes on every lent size.
    fn passes(answer: &Answer<Vec<u8>>, call: impl Fn(&mut [u8]) -> i64) -> bool {
        let mut check = Check::new("test");
        check.buffer(input, answer, call);
        check.differences == 0
    }

    fn write_ab(buffer: &mut [u8]) -> i64 {
        match buffer.first_chunk_mut() {
            Some(front) => {
                *front = *b"AB";
                2
            }
            None => -20,
        }
    }

    #[test]
    fn buffers_are_left_as_promised() {
        let answer = Ok(b"AB".to_vec());
        assert!(passes(&answer, write_ab));
        assert!(passes(&Err(17), |_| -17));
        assert!(!passes(&Err(17), |_| -16));
        assert!(!passes(&answer, |buffer| write_ab(buffer).max(-19)));
        let past_the_reply = |buffer: &mut [u8]| {
            if let Some(byte) = buffer.get_mut(2) {
                *byte = !*byte;
            }
            write_ab(buffer)
        };
        assert!(!passes(&answer, past_the_reply));
        let before_refusing = |buffer: &mut [u8]| {
            if let Some(byte) = buffer.first_mut() {
                *byte = !*byte;
            }
            write_ab(buffer)
        };
        assert!(!passes(&answer, before_refusing));
        assert!(!passes(&Err(17), |buffer| before_refusing(buffer).min(-17)));
    }

    #[test]
    fn slots_are_left_as_promised() {
        let passes = |answer: &Answer<(i64, Vec<u64>)>, call: fn(&mut [u64]) -> i64| {
            let mut check = Check::new("test");
            check.slots(input, answer, 2, call);
            check.differences == 0
        };
        let write_7_8 = |slots: &mut [u64]| {
            if slots.len() < 2 {
                return -20;
            }
            slots[..2].copy_from_slice(&[7, 8]);
            0
        };
        assert!(passes(&Ok((0, vec![7, 8])), write_7_8));
        assert!(!passes(&Ok((0, vec![7, 9])), write_7_8));
        assert!(!passes(&Ok((0, vec![])), write_7_8));
        assert!(passes(&Ok((0, vec![])), |_| 0));
        assert!(passes(&Ok((0, vec![])), |slots| if slots.len() < 2 { -20 } else { 0 }));
        assert!(!passes(&Ok((0, vec![])), |slots| if slots.len() < 2 { -21 } else { 0 }));
        assert!(passes(&Err(9), |_| -9));
        assert!(!passes(&Err(9), |slots| if slots.len() < 2 { -20 } else { -9 }));
    }
}
