//! The reply reader for C: an input is packets and slots of a position that are forged. Every step of a run
//! from the fresh position, and of one from the forged position, is held against the second reader; so is the
//! payload that the packets hold.

use crate::compact::Draw;
use crate::compare::{Check, Expected};
use crate::hex::hex;
use crate::reading::{self, HEADER, POSITION, Position, TOKEN, Token};
use crate::refusal::SHORT_BUFFER;
use crate::station::{station_fresh, station_payload, station_step};
use crate::wall::Wall;

/// Slots before and after those that are lent.
const GUARD: usize = 4;
const GUARDED: u64 = 0x5AA5_A55A_0FF0_F00F;
/// An answer that no call gives, where a position is not left as it must be.
const LEFT_OTHERWISE: i64 = i64::MIN;
/// Bits of the first byte: the packets come as they are, and not as a payload; all slots are forged alike; the
/// payload is cut into packets; a byte of a header is changed; bytes follow the packets.
pub const WHOLE: u8 = 0x01;
const ALL: u8 = 0x10;
const CUT: u8 = 0x20;
const CHANGED: u8 = 0x40;
const FOLLOWED: u8 = 0x80;

pub fn compare_one(input: &[u8], wall: &mut Wall) -> Vec<Check> {
    let mut checks = ["station_fresh", "station_step", "station_payload"].map(Check::new);
    let fresh = Ok((0, reading::fresh().to_vec()));
    checks[0].slots(String::new, &fresh, POSITION, station_fresh);
    let mut draw = Draw::new(input);
    let form = draw.byte();
    let taken = usize::from(draw.byte());
    let forged = forged(&mut draw, form);
    let packets = packets(&mut draw, form);
    let lent = wall.lend(&packets);
    let run = run(&mut checks[1], lent, reading::fresh());
    let mut position = run[taken.min(run.len() - 1)];
    for (slot, value) in forged {
        position[slot] = value;
    }
    self::run(&mut checks[1], lent, position);
    checks[2].buffer(|| hex(lent), &reading::payload(lent), |buffer| station_payload(lent, buffer));
    checks.into()
}

/// The slots that are forged, and their values.
fn forged(draw: &mut Draw, form: u8) -> Vec<(usize, u64)> {
    if form & ALL != 0 {
        let value = draw.value();
        return (0..POSITION).map(|slot| (slot, value)).collect();
    }
    (0..form >> 1 & 7).map(|_| (usize::from(draw.byte()) % POSITION, draw.value())).collect()
}

/// The rest of an input: packets, or a payload that is put into packets, with faults that the input says.
fn packets(draw: &mut Draw, form: u8) -> Vec<u8> {
    if form & WHOLE != 0 {
        return draw.rest().to_vec();
    }
    let sizes = if form & CUT != 0 { sizes(draw) } else { (Vec::new(), None) };
    let change = (form & CHANGED != 0).then(|| (usize::from(draw.u16()), draw.byte()));
    let after = if form & FOLLOWED != 0 { draw.bytes() } else { Vec::new() };
    let mut parts = cut(draw.rest(), &sizes.0, sizes.1);
    if let Some((place, byte)) = change {
        let count = parts.len();
        parts[place / HEADER % count][place % HEADER] = byte;
    }
    parts.push(after);
    parts.concat()
}

/// The sizes of the first payloads, and that of all others; without one, the last packet has the rest.
fn sizes(draw: &mut Draw) -> (Vec<usize>, Option<usize>) {
    let form = draw.byte();
    let mut size = || usize::from(draw.byte()).max(1);
    let first = (0..form & 7).map(|_| size()).collect();
    (first, (form & 8 != 0).then(size))
}

/// A payload in packets of these sizes: numbers rise from 1, and the end bit is on the last. A payload of no
/// bytes is a header alone.
pub fn cut(payload: &[u8], first: &[usize], others: Option<usize>) -> Vec<Vec<u8>> {
    let mut sizes = first.iter().copied();
    let (mut parts, mut rest) = (Vec::new(), payload);
    while !rest.is_empty() || parts.is_empty() {
        let size = sizes.next().or(others).unwrap_or(rest.len());
        let (part, more) = rest.split_at(size.min(rest.len()));
        let number = (parts.len() + 1) as u8;
        let [high, low] = ((part.len() + HEADER) as u16).to_be_bytes();
        let head = [0x04, u8::from(more.is_empty()), high, low, 0x00, 0x00, number, 0x00];
        parts.push([&head, part].concat());
        rest = more;
    }
    parts
}

/// Steps until the end or a refusal; the positions that were passed, the first one too. A token has a byte
/// at least, so that every run ends.
fn run(check: &mut Check, lent: &[u8], first: Position) -> Vec<Position> {
    let mut positions = vec![first];
    while let Some(next) = compare_step(check, lent, positions[positions.len() - 1]) {
        positions.push(next);
        assert!(positions.len() <= lent.len(), "a run that does not end: {}", hex(lent));
    }
    positions
}

/// One step, with slots lent exactly, more and fewer; the next position, where a token was read.
fn compare_step(check: &mut Check, lent: &[u8], position: Position) -> Option<Position> {
    let mut next = position;
    let answer = reading::step(lent, &mut next);
    let shown = || format!("{} {}", hex(lent), shown(&position));
    let expected = expected(&answer);
    for size in [TOKEN, TOKEN + 3] {
        check.call(shown, (0, size), expected, |_, out| step(lent, &position, &next, out));
    }
    let is_token = matches!(answer, Ok(Some(_)));
    let short = if is_token { Expected::refused(SHORT_BUFFER) } else { expected };
    for size in [0, TOKEN - 1] {
        check.call(shown, (0, size), short, |_, out| step(lent, &position, &position, out));
    }
    if !is_token {
        return None;
    }
    let fewer = &position[..POSITION - 1];
    check.call(shown, (0, TOKEN), short, |_, out| step(lent, fewer, fewer, out));
    Some(next)
}

fn expected(answer: &Result<Option<Token>, u8>) -> Expected<'_> {
    match answer {
        Ok(Some(token)) => Expected { code: 1, bytes: &[], slots: token },
        Ok(None) => Expected::number(0),
        Err(number) => Expected::refused(*number),
    }
}

/// The call's answer, where it leaves the slots of the position as `after` has them and those around them.
fn step(lent: &[u8], before: &[u64], after: &[u64], out: &mut [u64]) -> i64 {
    let mut slots = guarded(before);
    let code = station_step(lent, &mut slots[GUARD..GUARD + before.len()], out);
    if slots == guarded(after) { code } else { LEFT_OTHERWISE }
}

fn guarded(slots: &[u64]) -> Vec<u64> {
    [&[GUARDED; GUARD], slots, &[GUARDED; GUARD]].concat()
}

/// A position's slots up to the last one that is not 0.
fn shown(position: &Position) -> String {
    let end = position.iter().rposition(|slot| *slot != 0).map_or(0, |last| last + 1);
    format!("from {:?}", &position[..end])
}
