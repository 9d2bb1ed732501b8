//! The cases of document 01 and of its readings, held against the Rust and the script decoder
//! without the library; of labels, held against the second reader and writer.

use crate::answers::Part;
use crate::answers::counted::{Places, places};
use crate::answers::labels;
use crate::answers::reply::{accepted, packet, reply, rust_packet};
use crate::answers::request::{batch, descriptor, fedauth, transaction};
use crate::hex::{hex, unhex};
use crate::inputs::misfit;
use crate::inputs::script::{SMALL, Shape, damaged, of_shape, random_script};
use crate::protocol;
use crate::random::Random;
use crate::refusal::*;
use crate::script::fit::{first, misfits};
use crate::script::records::*;
use crate::tokens;
use crate::utf16;
use std::collections::BTreeSet;

const COLLATION: [u8; 5] = [1, 2, 3, 4, 5];

fn reply_to(digits: &str) -> Answer<String> {
    reply(&unhex(digits)).map(|packet| hex(&packet))
}

fn reply_of(records: &[Record]) -> Answer<Vec<u8>> {
    reply(&written(records))
}

fn spaced(digits: &str) -> String {
    hex(&unhex(digits))
}

#[test]
fn case_1_a_bare_set() {
    let packet = "0401001800000100 810000 FD1000C1000000000000000000";
    assert_eq!(reply_to("000000000100"), Ok(spaced(packet)));
}

#[test]
fn case_2_an_int_column() {
    let script = [set(&[]), column(3, COLLATION, b"n\0"), row(), cell(3, &[7, 0, 0, 0])];
    let packet = "0401002900000100 8101000000000000002604016E00 D10407000000 \
                  FD1000C1000100000000000000";
    assert_eq!(reply_of(&script), Ok(unhex(packet)));
    assert_eq!(unhex(packet).len(), 41);
}

#[test]
fn case_3_two_bare_sets() {
    let packet = "0401002800000100 810000 FD1100C1000000000000000000 \
                  810000 FD1000C1000000000000000000";
    assert_eq!(reply_to("000000000100 000000000100"), Ok(spaced(packet)));
}

#[test]
fn cases_4_and_5_attention_and_transactions() {
    let attention = unhex("0401001500000100 FD2000C1000000000000000000");
    assert_eq!(protocol::build_attention_ack_packet()[..], attention);
    let begin = unhex("E30B0008080100000000000000 00 FD0000C1000000000000000000");
    assert_eq!(protocol::build_transaction_manager_response(5)[..], begin);
    assert_eq!(begin.len(), 27);
    let done = protocol::build_done_token(0);
    assert_eq!(protocol::build_transaction_manager_response(6), done);
}

#[test]
fn case_6_batches() {
    let part = |start, length| Ok(Part { start, length });
    assert_eq!(batch(&unhex("04000000 2000 4100 2000 7F")), part(6, 2));
    assert_eq!(batch(&unhex("00000000")), Err(HEADERS_TOO_SMALL));
    assert_eq!(batch(&unhex("000000")), Err(SHORT_BATCH));
    assert_eq!(batch(&unhex("05000000")), Err(HEADERS_PAST_END));
    assert_eq!(batch(&unhex("04000000 4100 3DD8 00")), Err(BATCH_NOT_UTF16));
    assert_eq!(batch(&unhex("04000000 2000 0900 FF")), part(8, 0));
}

#[test]
fn cases_7_to_9_transactions_descriptors_tokens() {
    assert_eq!(transaction(&unhex("040000000500")), Ok(5));
    assert_eq!(transaction(&unhex("0400000005")), Err(NO_REQUEST_TYPE));
    assert_eq!(transaction(&unhex("00000000")), Err(HEADERS_TOO_SMALL));
    assert_eq!(transaction(&unhex("0300000005")), Err(HEADERS_TOO_SMALL));
    assert_eq!(transaction(&unhex("000000")), Err(NO_REQUEST_TYPE));
    assert_eq!(descriptor(&unhex("03000000")), None);
    let found = unhex("16000000 12000000 0200 0102030405060708 11121314");
    assert_eq!(descriptor(&found), Some((0x0807_0605_0403_0201, 0x1413_1211)));
    assert_eq!(descriptor(&[&[23], &found[1..]].concat()), None);
    let skipped = unhex("1C000000 06000000 0200 12000000 0200 0102030405060708 11121314");
    assert_eq!(descriptor(&skipped), Some((0x0807_0605_0403_0201, 0x1413_1211)));
    assert_eq!(fedauth(&unhex("0400000000000000")), Ok(Part { start: 8, length: 0 }));
}

#[test]
fn cases_10_and_11_route_and_error_reply() {
    let route = unhex("E30C00 14 0700 00 9905 0100 6100 0000");
    assert_eq!(protocol::build_routing_envchange_token("a", 1433)[..], route);
    let error = protocol::build_error_response("\u{E9}");
    assert_eq!(error[9..11], [0x00, 0x10]);
    assert_eq!(error[17..19], [0x02, 0x00]);
    let euros = protocol::build_error_response(&"\u{20AC}".repeat(21_846));
    assert_eq!(euros[17..19], [0x02, 0x00]);
}

#[test]
fn case_12_borders() {
    let text = |units| b"e\0".repeat(units);
    let terminal = |units| reply_of(&[set(&[]), error(TERMINAL, 1, 2, &text(units))]);
    assert_eq!(terminal(32_748).map(|packet| packet.len()), Ok(65_534));
    assert_eq!(terminal(32_749), Err(LONG_RESULT));
    let named = |units| reply_of(&[set(&[]), column(1, COLLATION, &text(units))]);
    assert!(named(255).is_ok());
    assert_eq!(named(256), Err(LONG_NAME));
    let columns = |count| {
        let column = column(1, COLLATION, &[]);
        accepted(&written(&[vec![set(&[])], vec![column; count]].concat())).unwrap()
    };
    assert!(misfits(&columns(128)).is_empty());
    assert_eq!(misfits(&columns(129)), [[2, 0, 0, 128]]);
    assert!(packet(&columns(129)).is_ok());
}

#[test]
fn readings_of_cuts_kinds_and_shapes() {
    for (script, number) in [
        ("", KIND),
        ("01", RECORD_CUT),
        ("0000000001", RECORD_CUT),
        ("01000000 6300", RECORD_CUT),
        ("FFFFFFFF 0100", RECORD_CUT),
        ("00000000 0201", KIND),
        ("00000000 0100 00000000 0500", KIND),
        ("00000000 0100 01000000 0400 00", SHAPE),
    ] {
        assert_eq!(reply_to(script), Err(number), "{script}");
    }
}

#[test]
fn readings_of_orders() {
    let (leading, terminal) = (error(LEADING, 1, 2, &[]), error(TERMINAL, 1, 2, &[]));
    let int = cell(3, &[0; 4]);
    for wrong in [
        vec![row(), int.clone(), chunk(&[1, 2])],
        vec![row(), cell(9, &[]), row(), chunk(&[1, 2])],
        vec![int],
        vec![terminal.clone(), leading.clone()],
        vec![leading.clone(), leading],
        vec![terminal.clone(), terminal],
        vec![row(), info(INFO, &[], &[], &[])],
        vec![info(TRAILING, &[], &[], &[]), set(&[])],
    ] {
        assert_eq!(reply_of(&[vec![set(&[])], wrong].concat()), Err(KIND));
    }
}

#[test]
fn readings_of_texts_and_names() {
    let (high, low) = (&[0x3D, 0xD8][..], &[0x00, 0xDE][..]);
    assert_eq!(reply_of(&[set(&[]), info(INFO, high, low, &[])]), Err(RECORD_NOT_UTF16));
    let odd = [set(&[]), row(), cell(6, &[]), chunk(&[1])];
    assert_eq!(reply_of(&odd), Err(SHAPE));
    assert_eq!(reply_of(&[set(&[]), row(), cell(5, &[0x3D, 0xD8, 0])]), Err(SHAPE));
    assert!(reply_of(&[set(&[]), row(), cell(6, &[]), chunk(high)]).is_ok());
}

/// Document 02, 2026-08: the count before a column's name, byte 19 of a reply whose first column is an
/// integer. The Rust counts characters: 1 where the name is a pair, 127 where it is 127 of them.
#[test]
fn a_name_is_counted_in_units() {
    let pair = &[0x3D, 0xD8, 0x00, 0xDE][..];
    let of = |name: &[u8]| [set(&[]), column(1, COLLATION, name)];
    let count = |name: &[u8]| reply_of(&of(name)).map(|packet| packet[19]);
    let rust = |name: &[u8]| rust_packet(&accepted(&written(&of(name))).unwrap())[19];
    assert_eq!((count(b"n\0"), rust(b"n\0")), (Ok(1), 1));
    assert_eq!((count(pair), rust(pair)), (Ok(2), 1));
    assert_eq!((count(&pair.repeat(127)), rust(&pair.repeat(127))), (Ok(254), 127));
    let unit_last = [&pair.repeat(127)[..], b"n\0"].concat();
    assert_eq!((count(&unit_last), rust(&unit_last)), (Ok(255), 128));
    let pair_last = [&b"n\0".repeat(253)[..], pair].concat();
    assert_eq!((count(&pair_last), rust(&pair_last)), (Ok(255), 254));
    assert_eq!(count(&pair.repeat(128)), Err(LONG_NAME));
    assert_eq!(count(&pair[..2]), Err(RECORD_NOT_UTF16));
}

#[test]
fn the_first_emitted_fault_counts_and_a_terminal_error_drops_it() {
    let long = column(1, COLLATION, &b"n\0".repeat(256));
    let empty = [row(), cell(9, &[]), chunk(&[])];
    let (first, second) = ([&[set(&[])], &empty[..]].concat(), [set(&[]), long]);
    assert_eq!(reply_of(&[&first[..], &second].concat()), Err(EMPTY_CHUNK));
    assert_eq!(reply_of(&[&second[..], &first].concat()), Err(LONG_NAME));
    let terminal = [set(&[]), error(TERMINAL, 1, 2, &[])];
    assert_eq!(
        reply_of(&[&terminal[..], &empty, &second].concat()).map(|packet| packet.len()),
        Ok(38)
    );
    assert_eq!(reply_of(&[&second[..], &terminal].concat()), Err(LONG_NAME));
}

#[test]
fn misfits_by_set_row_and_column() {
    let int = column(3, COLLATION, &[]);
    let of = |records: &[Record]| misfits(&accepted(&written(records)).unwrap());
    assert_eq!(of(&[set(&[1])]), [[1, 0, 0, 0]]);
    assert_eq!(of(&[set(&[]), row(), cell(10, &[])]), [[3, 0, 0, 0]]);
    let rows = [set(&[]), int.clone(), int.clone(), row(), cell(10, &[]), row(), cell(7, &[])];
    assert_eq!(of(&rows), [[3, 0, 0, 1], [3, 0, 1, 0], [3, 0, 1, 1]]);
    let pair = column(5, COLLATION, &utf16::text_bytes("\u{1F600}"));
    assert!(of(&[set(&[]), int.clone(), pair]).is_empty());
    for count in [128, 129, 130, 300] {
        let columns = vec![int.clone(); count];
        let script = [&[set(&[]), set(&[])], &columns[..]].concat();
        assert_eq!(of(&script), [[2, 1, 0, 128]][..usize::from(count > 128)]);
    }
}

#[test]
fn the_first_misfit_whatever_the_order_of_the_list() {
    let rising = [
        [1, 0, 0, 0],
        [2, 0, 0, 0],
        [2, 0, 0, 128],
        [3, 0, 0, 0],
        [3, 0, 0, 5],
        [3, 0, 1, 0],
        [1, 1, 0, 0],
        [3, 1, 0, 1],
        [2, 2, 0, 0],
    ];
    for place in 0..rising.len() {
        let mut left = rising[place..].to_vec();
        assert_eq!(first(&left), Some(rising[place]));
        left.reverse();
        assert_eq!(first(&left), Some(rising[place]));
    }
    assert_eq!(first(&[]), None);
}

/// The first misfit and another one: their kinds, and whether they are of one set and of one row.
#[test]
fn faults_make_every_pair_of_kinds_in_one_set_and_in_two() {
    let mut met = BTreeSet::new();
    for faults in misfit::choices() {
        let found = misfits(&accepted(&written(&misfit::with(&faults))).unwrap());
        let Some([kind, set, row, column]) = first(&found) else {
            continue;
        };
        for other in found.iter().filter(|other| **other != [kind, set, row, column]) {
            met.insert((kind, other[0], set == other[1], set == other[1] && row == other[2]));
        }
    }
    let in_two_sets = (1..=3).flat_map(|a| (1..=3).map(move |b| (a, b, false, false)));
    let in_one = [(1, 2, true), (1, 3, true), (2, 3, true), (3, 3, true)];
    let in_other_rows = [(1, 3, false), (2, 3, false), (3, 3, false)];
    let in_one = in_one.iter().chain(&in_other_rows).map(|(a, b, row)| (*a, *b, true, *row));
    assert_eq!(met, in_two_sets.chain(in_one).collect());
}

#[test]
fn scripts_that_shall_fit_do_and_damage_meets_every_refusal() {
    let mut random = Random::new(1, "cases");
    let mut met = BTreeSet::new();
    for _ in 0..20_000 {
        let script = of_shape(&mut random, Shape { fits: true, ..SMALL });
        assert!(misfits(&accepted(&written(&script)).unwrap()).is_empty());
        let script = random_script(&mut random);
        met.insert(reply(&damaged(&mut random, &script)).err());
    }
    let scripts_own = RECORD_CUT..=LONG_NAME;
    assert!(scripts_own.into_iter().all(|number| met.contains(&Some(number))), "{met:?}");
}

#[test]
fn scripts_emit_their_tokens() {
    let of = |records: &[Record]| tokens::lines(&written(records)).map(|lines| lines.join(" | "));
    let text = |text: &str| Some(text.to_string());
    assert_eq!(of(&[set(&[])]), text("81 0 | FD 0010 00C1 0 | end"));
    let mut script = vec![set(&[]), error(LEADING, 8, 9, b"e\0"), set(&[])];
    script.extend([column(2, COLLATION, b"n\0"), column(7, COLLATION, b"")]);
    script.extend([error(TERMINAL, 8, 9, b""), row(), cell(2, &[0, 0x80]), cell(8, &[])]);
    script.extend([chunk(&[1]), chunk(&[2, 3]), row(), cell(10, &[]), cell(7, &[])]);
    script.push(info(TRAILING, b"m\0", b"s\0", b""));
    let lines = "AA 8 1 9 1 6500 - - | FD 0003 00C1 0 | 81 0 | FD 0011 00C1 0 | 81 2 | \
                 col 0 0000 26 2 - 6E00 | col 0 0000 A7 65535 0102030405 - | \
                 D1 | num -32768 | part 010203 | D1 | null | null | \
                 AB 50000 1 10 7 6D00 7300 - | FD 0010 00C1 2 | end";
    assert_eq!(of(&script), text(lines));
    script[1] = error(TERMINAL, 8, 9, b"e\0");
    assert_eq!(of(&script), text("AA 8 1 9 1 6500 - - | FD 0002 00C1 0 | end"));
    assert_eq!(of(&[set(&[]), row()]), None);
    assert_eq!(of(&[row()]), None);
}

/// A script in which the bytes of a DONE stand in the classification, a name, messages and values: it
/// parts from the Rust in two bytes, the status of each set's DONE.
#[test]
fn status_words_are_told_from_bytes_that_look_like_them() {
    let done = unhex("FD0000C1000000000000000000 00");
    let mut script = vec![set(&done), column(5, COLLATION, &done), column(8, COLLATION, &done)];
    script.extend([error(LEADING, 1, 2, &done), info(INFO, &done, &done, &done), row()]);
    script.extend([cell(5, &done), cell(9, &[]), chunk(&done), chunk(&done), set(&done)]);
    script.push(info(TRAILING, &done, &done, &done));
    let script = accepted(&written(&script)).unwrap();
    let (ours, rust) = (packet(&script).unwrap(), rust_packet(&script));
    let differ: Vec<usize> = (0..rust.len()).filter(|at| ours[*at] != rust[*at]).collect();
    let last = rust.len() - 12;
    let info = 17 + 3 * done.len();
    let first = last - 13 - info - done.len() - 3;
    assert_eq!(ours.len(), rust.len());
    assert_eq!(differ, [first, last]);
    assert_eq!((rust[first], ours[first], rust[last], ours[last]), (0x01, 0x11, 0x00, 0x10));
    let statuses = vec![(first, true), (last, false)];
    assert_eq!(places(&script, &rust), Places { statuses, names: Vec::new() });
}

#[test]
fn a_terminal_script_has_the_status_of_the_rust() {
    let script = [set(&[]), error(TERMINAL, 8, 9, b"e\0"), set(&[])];
    let script = accepted(&written(&script)).unwrap();
    assert_eq!(packet(&script).unwrap(), rust_packet(&script)[..]);
}

/// Document 02, 2026-07.
#[test]
fn labels_that_are_read() {
    let read = |digits: &str| labels::read(&unhex(digits)).map(|text| text.map(|it| hex(&it)));
    let text = |digits: &str| Ok(Some(spaced(digits)));
    assert_eq!(read("FEFFFFFFFFFFFFFF 01000000 80 00000000"), text("AC20"));
    assert_eq!(read("0200000000000000 01000000 41 01000000 81 00000000"), text("4100 8100"));
    assert_eq!(read("0000000000000000 00000000"), text(""));
    assert_eq!(read("FEFFFFFFFFFFFFFF 00000000"), text(""));
    assert_eq!(read("FFFFFFFFFFFFFFFF"), Ok(None));
    for (digits, number) in [
        ("", VALUE_CUT),
        ("FFFFFFFFFFFFFF", VALUE_CUT),
        ("0000000000000000", VALUE_CUT),
        ("0100000000000000 010000", VALUE_CUT),
        ("0100000000000000 01000000", VALUE_CUT),
        ("0200000000000000 02000000 41", VALUE_CUT),
        ("0100000000000000 01000000 41", VALUE_CUT),
        ("FDFFFFFFFFFFFFFF FFFFFFFF 41", VALUE_CUT),
        ("FFFFFFFFFFFFFFFF FF", VALUE_WRONG),
        ("0100000000000000 02000000", VALUE_WRONG),
        ("0100000000000000 00000000", VALUE_WRONG),
        ("0100000000000000 01000000 41 01000000", VALUE_WRONG),
        ("0200000000000000 01000000 41 00000000", VALUE_WRONG),
        ("0000000000000000 00000000 00", VALUE_WRONG),
        ("FEFFFFFFFFFFFFFF 00000000 00000000", VALUE_WRONG),
    ] {
        assert_eq!(read(digits), Err(number), "{digits}");
    }
}

/// Refusals of a long value, the last of which is its length: what stands after it goes before that.
#[test]
fn labels_of_the_most_characters() {
    let value = |total: u64, count| labels::value(total, &[&vec![0x9F; count]]);
    let text = labels::read(&value(65_535, 65_535)).unwrap().unwrap();
    assert_eq!(text, [0x78, 0x01].repeat(65_535));
    assert_eq!(labels::write(&text), Ok(value(65_535, 65_535)));
    for total in [65_536, labels::UNKNOWN] {
        let long = value(total, 65_536);
        assert_eq!(labels::read(&long), Err(LONG_RESULT));
        assert_eq!(labels::read(&long[..long.len() - 1]), Err(VALUE_CUT));
        assert_eq!(labels::read(&[&long[..], &[0]].concat()), Err(VALUE_WRONG));
    }
    assert_eq!(labels::read(&value(65_537, 65_536)), Err(VALUE_WRONG));
    let mut long = [&text[..], &[0x41, 0x00]].concat();
    assert_eq!(labels::write(&long), Err(LONG_RESULT));
    long.extend([0x80, 0x00]);
    assert_eq!(labels::write(&long), Err(NO_BYTE));
    long.push(0x00);
    assert_eq!(labels::write(&long), Err(ODD_ARGUMENT));
}

#[test]
fn labels_that_are_written() {
    let write = |digits: &str| labels::write(&unhex(digits));
    assert_eq!(write("AC20"), Ok(unhex("0100000000000000 01000000 80 00000000")));
    assert_eq!(write("8100 4100"), Ok(unhex("0200000000000000 02000000 8141 00000000")));
    assert_eq!(write(""), Ok(vec![0; 12]));
    for unit in ["8000", "9F00", "0001", "FFFF", "3DD8 00DE", "00DE", "3DD8"] {
        assert_eq!(write(unit), Err(NO_BYTE), "{unit}");
        assert_eq!(write(&format!("4100 {unit} 4100")), Err(NO_BYTE), "{unit}");
        assert_eq!(write(&format!("{unit} 41")), Err(ODD_ARGUMENT), "{unit}");
    }
    assert_eq!(write("41"), Err(ODD_ARGUMENT));
}

#[test]
fn the_list_of_white_space_is_that_of_rust() {
    let listed = |unit: u32| {
        matches!(
            unit,
            0x0009..=0x000D | 0x0020 | 0x0085 | 0x00A0 | 0x1680 | 0x2000..=0x200A
                | 0x2028 | 0x2029 | 0x202F | 0x205F | 0x3000
        )
    };
    for character in '\0'..=char::MAX {
        assert_eq!(character.is_whitespace(), listed(character.into()), "{character:?}");
    }
}
