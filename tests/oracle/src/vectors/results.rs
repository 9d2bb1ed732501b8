//! Scripts: the reply builder under its four names and in packets, the room for both, the fit check.

use super::{Vectors, print_built, print_line, print_read, words};
use crate::answers::packets::reply_in_packets;
use crate::answers::reply::{accepted, extras, narrow, packet, reply, trailing};
use crate::hex::{packed, unhex};
use crate::inputs::misfit;
use crate::inputs::script::{SMALL, Shape, damaged, of_shape, random_script};
use crate::random::Random;
use crate::refusal::Answer;
use crate::script::Script;
use crate::script::fit::{Misfit, first, misfits};
use crate::script::records::*;

const COLLATION: [u8; 5] = [0x09, 0x04, 0xD0, 0x00, 0x34];

/// Sizes that can be agreed, and some that cannot.
const SIZES: [usize; 5] = [512, 513, 600, 4_096, 32_767];
const OUTSIDE: [usize; 3] = [511, 32_768, 0];
/// One in so many of the scripts with faults, and none of more than so many bytes.
const STEP: usize = 101;
const SHORT: usize = 1_000;
/// The bytes of a bare set beside its classification: COLMETADATA and DONE.
const BARE: usize = 16;

type Build = fn(&Script) -> Answer<Vec<u8>>;
/// Whether a narrowing of the Rust takes all that the script holds.
type Takes = fn(&Script) -> bool;

pub fn print(vectors: Vectors) {
    let builders: [(&str, Build, Takes); 4] = [
        ("build_query_results", packet, |_| true),
        ("build_query_result", narrow, |script| is_bare(script) && script.trailing.is_empty()),
        ("build_query_result_with_trailing_info", trailing, is_bare),
        ("build_query_result_with_extras", extras, |script| script.sets.len() == 1),
    ];
    for (name, build, takes) in builders {
        replies(vectors, name, build, takes);
    }
    in_packets(vectors);
    for script in vectors.inputs("room", cases(), any_script) {
        print_read("room", &script, reply(&script).map(|reply| reply.len()));
    }
    room_in_packets(vectors);
    let cases = [cases(), several_misfits()].concat();
    for script in vectors.inputs("fit", cases, any_script) {
        let fit = accepted(&script).and_then(|script| Ok((packet(&script)?, misfits(&script))));
        print_read("fit", &script, fit.map(|(_, misfits)| fit_words(first(&misfits))));
    }
}

fn is_bare(script: &Script) -> bool {
    script.sets.len() == 1 && script.sets[0].classification.is_empty()
}

fn replies(vectors: Vectors, name: &str, build: Build, takes: Takes) {
    let mut random = vectors.random(name);
    let taken = |script: &[u8]| accepted(script).map_or(true, |script| takes(&script));
    let cases = cases().into_iter().filter(|script| taken(script)).collect();
    let random_input = |random: &mut Random| {
        std::iter::repeat_with(|| any_script(random)).find(|script| taken(script)).unwrap()
    };
    for script in vectors.inputs(name, cases, random_input) {
        let reply = accepted(&script).and_then(|script| build(&script));
        print_built(&mut random, name, &[packed(&script)], &reply);
    }
}

/// The reply in packets: each script at a size that can be agreed, and some at sizes that cannot.
fn in_packets(vectors: Vectors) {
    let name = "build_query_results_in_packets";
    let mut random = vectors.random(name);
    for (place, script) in vectors.inputs(name, cases(), any_script).iter().enumerate() {
        let sizes = if place % 16 == 0 { &OUTSIDE[..] } else { &[] };
        for size in [&[random.pick(&SIZES)], sizes].concat() {
            let answer = reply_in_packets(script, size);
            print_built(&mut random, name, &[packed(script), size.to_string()], &answer);
        }
    }
}

/// The room for the reply in packets: each script at a size that can be agreed, and some at sizes that cannot; payloads that
/// fill packets of 512 bytes, one byte less and one more, and the longest.
fn room_in_packets(vectors: Vectors) {
    let name = "room_in_packets";
    let mut random = vectors.random(name);
    let print = |script: &[u8], size: usize| {
        let answer = reply_in_packets(script, size).map(|packets| packets.len());
        print_line(name, &[size.to_string(), packed(script)], &words(answer));
    };
    for (place, script) in vectors.inputs(name, cases(), any_script).iter().enumerate() {
        let sizes = if place % 16 == 0 { &OUTSIDE[..] } else { &[] };
        for size in [&[random.pick(&SIZES)], sizes].concat() {
            print(script, size);
        }
    }
    for payload in [503, 504, 505, 1_007, 1_008, 1_009, 65_526, 65_527] {
        let script = written(&[set(&vec![0x5A; payload - BARE])]);
        for size in [512, 513, 32_766, 32_767] {
            print(&script, size);
        }
    }
}

/// Some of the scripts of two sets with one, two or three faults; those that are not long.
fn several_misfits() -> Vec<Vec<u8>> {
    let choices = misfit::choices().into_iter().step_by(STEP);
    let scripts = choices.map(|faults| written(&misfit::with(&faults)));
    scripts.filter(|script| script.len() <= SHORT).collect()
}

/// The first misfit of a script; `fits` where there is none.
fn fit_words(first: Option<Misfit>) -> String {
    match first {
        None => "fits".to_string(),
        Some([1, set, _, _]) => format!("class {set}"),
        Some([2, set, _, column]) => format!("column {set} {column}"),
        Some([_, set, row, column]) => format!("cell {set} {row} {column}"),
    }
}

fn any_script(random: &mut Random) -> Vec<u8> {
    let script = match random.below(4) {
        0 => random_script(random),
        1 => of_shape(random, Shape { sets: 1, ..SMALL }),
        _ => of_shape(random, Shape { fits: true, ..SMALL }),
    };
    if random.one_in(3) { damaged(random, &script) } else { written(&script) }
}

/// The cases of document 01 and of its readings, and a script at each border.
fn cases() -> Vec<Vec<u8>> {
    let digits = [
        "",
        "01",
        "0000000001",
        "010000006300",
        "FFFFFFFF0100",
        "000000000201",
        "000000000100",
        "0000000001000800000002000300000000006E000000000004000500000005000307000000",
        "000000000100000000000100",
        "000000000100000000000500",
        "00000000010001000000040000",
    ];
    let mut cases: Vec<Vec<u8>> = digits.iter().map(|digits| unhex(digits)).collect();
    cases.extend(orders().iter().chain(&texts()).chain(&borders()).map(|case| written(case)));
    cases
}

/// Records out of order, and errors that drop or do not drop what follows.
fn orders() -> Vec<Vec<Record>> {
    let (leading, terminal) = (error(LEADING, 1, 2, b"l\0"), error(TERMINAL, 3, 4, b"t\0"));
    let empty = [row(), cell(9, &[]), chunk(&[])];
    let long = column(1, COLLATION, &b"n\0".repeat(256));
    let int = cell(3, &[0xFF; 4]);
    let after_a_set = [
        vec![row(), int.clone(), chunk(&[1, 2])],
        vec![row(), cell(9, &[]), row(), chunk(&[1, 2])],
        vec![int],
        vec![terminal.clone(), leading.clone()],
        vec![leading.clone(), leading.clone()],
        vec![terminal.clone(), terminal.clone()],
        vec![row(), info(INFO, &[], &[], &[])],
        vec![info(TRAILING, &[], &[], &[]), set(&[])],
        vec![leading.clone(), terminal.clone()],
        vec![leading.clone(), set(&[]), leading],
        vec![set(&[]), terminal.clone()],
        [&[terminal.clone()], &empty[..], &[set(&[]), long.clone()]].concat(),
        [&empty[..], &[set(&[]), long.clone()]].concat(),
        [&[long, set(&[])], &empty[..]].concat(),
        vec![terminal, info(TRAILING, &[], &b"s\0".repeat(256), &[])],
        vec![info(TRAILING, b"m\0", b"s\0", b"p\0")],
        vec![row(), cell(10, &[])],
    ];
    after_a_set.iter().map(|records| [&[set(&[])], &records[..]].concat()).collect()
}

fn texts() -> Vec<Vec<Record>> {
    let (high, low) = (&[0x3D, 0xD8][..], &[0x00, 0xDE][..]);
    let pair = [high, low].concat();
    let pairs = |count| column(5, COLLATION, &pair.repeat(count));
    let named = |parts: [&[u8]; 2]| vec![set(&[]), column(3, COLLATION, &parts.concat())];
    vec![
        vec![set(&[0xA3, 0])],
        vec![set(&[]), info(INFO, high, low, &[])],
        vec![set(&[]), row(), cell(6, &[]), chunk(&[1])],
        vec![set(&[]), row(), cell(5, &[0x3D, 0xD8, 0])],
        vec![set(&[]), row(), cell(6, &[]), chunk(high)],
        vec![set(&[]), pairs(1), row(), cell(5, b"x\0")],
        vec![set(&[]), pairs(127)],
        named([&b"n\0".repeat(253), &pair]),
        named([&pair.repeat(127), b"n\0"]),
        vec![set(&[]), pairs(128)],
        vec![set(&[]), column(2, COLLATION, b"n\0"), row(), cell(2, &[0, 0x80])],
        vec![set(&[]), column(5, COLLATION, b"n\0"), row(), cell(5, &b"x\0".repeat(4_000))],
        vec![set(&[]), column(5, COLLATION, b"n\0"), row(), cell(5, &b"x\0".repeat(4_001))],
    ]
}

/// Case 12: names of 255 and 256 units, 128 and 129 columns, replies of 65,535 bytes and around.
fn borders() -> Vec<Vec<Record>> {
    let text = |units| b"e\0".repeat(units);
    let one = |record: Record| vec![set(&[]), record];
    let columns = |count| [vec![set(&[])], vec![column(1, COLLATION, &[]); count]].concat();
    let binary = |bytes: usize| {
        let head = [set(&[]), column(8, COLLATION, &[]), row(), cell(9, &[])];
        [&head[..], &[chunk(&vec![7; bytes])]].concat()
    };
    let besides = reply(&written(&binary(1))).expect("a short reply").len() - 1;
    vec![
        one(error(TERMINAL, 1, 2, &text(32_748))),
        one(error(TERMINAL, 1, 2, &text(32_749))),
        one(column(1, COLLATION, &text(255))),
        one(column(1, COLLATION, &text(256))),
        one(info(INFO, &[], &text(255), &text(255))),
        one(info(INFO, &[], &text(255), &text(256))),
        one(info(TRAILING, &[], &text(256), &[])),
        columns(128),
        columns(129),
        columns(130),
        columns(300),
        binary(65_535 - besides),
        binary(65_536 - besides),
    ]
}
