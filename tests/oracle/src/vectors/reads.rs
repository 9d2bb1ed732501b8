//! Headers, texts, requests, captures of them, and logins.

use super::{Vectors, joined, print_line, print_read, words};
use crate::answers::Part;
use crate::answers::capture::marks;
use crate::answers::header::{Fields, header, written};
use crate::answers::login::{Login, login};
use crate::answers::request::{batch, descriptor, fedauth, transaction};
use crate::answers::text::{counts, is_whitespace};
use crate::hex::{packed, unhex};
use crate::inputs::capture::random_capture;
use crate::inputs::header::{BYTES, NUMBERS, PACKET_TYPES, random_fields, random_header};
use crate::inputs::login::{Feature, random_login, scattered_login, token_data};
use crate::inputs::request::*;
use crate::inputs::text::random_bytes;
use crate::random::Random;
use crate::refusal::{Answer, SHORT_BUFFER};
use crate::utf16::{self, BLANK_UNITS, BORDER_UNITS};

pub fn print(vectors: Vectors) {
    headers(vectors);
    written_headers(vectors);
    white_space();
    texts(vectors);
    requests(vectors);
    captures(vectors);
    logins(vectors);
    databases(vectors);
}

fn bytes_of(cases: &[&str]) -> Vec<Vec<u8>> {
    cases.iter().map(|case| unhex(case)).collect()
}

fn headers(vectors: Vectors) {
    let mut cases = bytes_of(&["0401001800000100", "12030FFF12345678", "04010018000001", ""]);
    cases.extend((0..=0x13).map(|kind| vec![kind, 1, 0, 24, 0, 0, 1, 0]));
    cases.extend((0..8).map(|bit| vec![4, 1 << bit, 0, 24, 0, 0, 1, 0]));
    for input in vectors.inputs("header", cases, random_header) {
        print_read("parse_header", &input, header_words(&input));
    }
}

/// Headers that are written: types that are known and others, the borders of each field, random ones.
fn written_headers(vectors: Vectors) {
    let reply = Fields { packet_type: 4, status: 1, length: 24, spid: 0, number: 1, window: 0 };
    let mut cases: Vec<Fields> =
        (0..=0x13).chain([0x80, 0xFF]).map(|packet_type| Fields { packet_type, ..reply }).collect();
    for (place, byte) in BYTES.into_iter().enumerate() {
        let other = BYTES[(place + 1) % BYTES.len()];
        cases.push(Fields { status: byte, number: other, window: !other, ..reply });
    }
    for (place, number) in NUMBERS.into_iter().enumerate() {
        let packet_type = PACKET_TYPES[place % PACKET_TYPES.len()];
        cases.push(Fields { packet_type, length: number, spid: !number, ..reply });
    }
    let mut random = vectors.random("write_header");
    cases.extend(std::iter::repeat_with(|| random_fields(&mut random)).take(vectors.count));
    for fields in cases {
        print_line("write_header", &fields.words(), &words(written(fields).map(|it| packed(&it))));
    }
}

fn header_words(bytes: &[u8]) -> Answer<String> {
    let header = header(bytes)?;
    let ends = [header.end_of_message.into(), header.ignore.into()];
    Ok(joined(&[&header.fields[..], &ends].concat()))
}

/// Each listed unit, and the units beside it.
fn white_space() {
    let mut units: Vec<u16> = BLANK_UNITS.iter().chain(&BORDER_UNITS).copied().collect();
    units.extend([0x000B, 0x0084, 0x0086, 0x00A1, 0x1681, 0x1FFF, 0x2005, 0x2027, 0x2029, 0x202A]);
    units.extend([0x202E, 0x2030, 0x205E, 0x2060, 0x2FFF, 0x3001, 0x2020, 0x8500]);
    units.sort_unstable();
    units.dedup();
    for unit in units {
        let blank = Ok(u8::from(is_whitespace(unit)));
        print_read("is_whitespace", &unit.to_le_bytes(), blank);
    }
}

fn texts(vectors: Vectors) {
    let mut cases = bytes_of(&["", "41", "3DD8", "00DE", "3DD800DE", "00DE3DD8", "3DD800", "E900"]);
    cases.push(utf16::bytes(&BORDER_UNITS));
    cases.extend(BORDER_UNITS.map(|unit| utf16::bytes(&[unit, 0xDC00])));
    for input in vectors.inputs("text", cases, |random| random_bytes(random, 24)) {
        print_read("text", &input, counts(&input).map(|counts| joined(&counts)));
    }
}

type RandomInput = fn(&mut Random) -> Vec<u8>;

fn requests(vectors: Vectors) {
    let functions: [(&str, RandomInput, &[&str]); 4] = [
        ("parse_sql_batch", random_batch, &BATCHES),
        ("parse_transaction_manager_request", random_transaction, &TRANSACTIONS),
        ("parse_transaction_descriptor_header", random_descriptor, &DESCRIPTORS),
        ("parse_fedauth_token", random_token_message, &TOKEN_MESSAGES),
    ];
    for (name, random_input, cases) in functions {
        for input in vectors.inputs(name, bytes_of(cases), random_input) {
            print_read(name, &input, answer(name, &input).expect("a known function"));
        }
    }
}

/// What the Rust answers to a header, a request or a login, all ids of which are lent; none where the
/// function is another.
pub fn answer(name: &str, input: &[u8]) -> Option<Answer<String>> {
    Some(match name {
        "parse_header" => header_words(input),
        "parse_sql_batch" => batch(input).map(part),
        "parse_transaction_manager_request" => transaction(input).map(|kind| kind.to_string()),
        "parse_transaction_descriptor_header" => {
            Ok(descriptor(input).map_or("none".to_string(), found))
        }
        "parse_fedauth_token" => fedauth(input).map(part),
        "parse_login7" => Ok(login_words(&login(input))),
        _ => return None,
    })
}

fn part(part: Part) -> String {
    joined(&part.slots())
}

fn found((descriptor, count): (u64, u32)) -> String {
    joined(&[descriptor, count.into()])
}

/// The cases of document 01 and of its readings.
const BATCHES: [&str; 10] = [
    "",
    "040000",
    "00000000",
    "03000000",
    "05000000",
    "040000002000410020007F",
    "0400000041003DD800",
    "040000003DD800DE",
    "0400000020002000",
    "0400000020000900FF",
];
const TRANSACTIONS: [&str; 8] = [
    "",
    "040000",
    "00000000",
    "03000000",
    "0300000005",
    "040000000500",
    "0400000005",
    "FFFFFFFF0500",
];
const DESCRIPTORS: [&str; 7] = [
    "16000000120000000200010203040506070811121314",
    "17000000120000000200010203040506070811121314",
    "1C000000060000000200120000000200010203040506070811121314",
    "22000000060000000200120000000200010203040506070811121314",
    "1600000012000000020001020304050607081112",
    "1600000005000000020001020304050607081112",
    "FFFFFFFFFFFFFFFF0200",
];
const TOKEN_MESSAGES: [&str; 6] = [
    "0400000000000000",
    "06000000020000004142",
    "04000000000000",
    "05000000000000004142",
    "06000000010000004142",
    "FFFFFFFFFFFFFFFF",
];

/// Captures with as many slots as they have marks, with more and with fewer.
fn captures(vectors: Vectors) {
    let mut random = vectors.random("slots");
    for capture in vectors.inputs("capture", bytes_of(&CAPTURES), random_capture) {
        let marks = marks(&capture);
        let count = marks.as_ref().map_or(0, Vec::len);
        let lent = random.pick(&[count, count, count + 1, count + 20, count.saturating_sub(1), 0]);
        let answer = match marks {
            Ok(_) if lent < count => Err(SHORT_BUFFER),
            Ok(marks) => Ok(joined(&[&[count as u64], &marks[..]].concat())),
            Err(number) => Err(number),
        };
        print_line("capture_marks", &[lent.to_string(), packed(&capture)], &words(answer));
    }
}

/// The cases of document 02, 2026-05.
const CAPTURES: [&str; 9] = [
    "",
    "04000000210000000000",
    "030000002100000000",
    "0400000021000400000004000000210003000000",
    "0400000021000000000000",
    "04000000210000000000000000002200",
    "010000002200",
    "0400000021000000000104000000210003000001",
    "0500000021000200000041000000002100060000002100010000000000030000002100000000",
];

fn any_login(random: &mut Random) -> Vec<u8> {
    if random.one_in(3) {
        let length = random.within(0, 160);
        return scattered_login(random, length);
    }
    random_login(random)
}

/// Logins whose features set, keep and reset what a login says, one of each slip.
fn login_cases() -> Vec<Vec<u8>> {
    let token = Feature::whole(0x02, &token_data(2, b"t\0"));
    let lists = [
        vec![],
        vec![token.clone(), Feature::whole(0x02, &[0x04, 0x03])],
        vec![Feature::whole(0x02, &[0x04, 0x03]), Feature::whole(0x02, &[0x04])],
        vec![Feature::whole(0x02, &[]), Feature::told(0x02, 9, &[0x04])],
        vec![Feature::whole(0x02, &token_data(0, &[]))],
        vec![Feature::whole(0x02, &token_data(0, &[0xAA]))],
        vec![Feature::whole(0x09, &[2]), Feature::told(0x09, 3, &[])],
        vec![Feature::whole(0x01, &[1]), Feature::whole(0x01, &[])],
        vec![Feature::whole(0x10, b"u\0"), Feature::whole(0x10, b"v\0x")],
        vec![Feature::whole(0x10, &[]), Feature::whole(0x0F, &[1]), token],
    ];
    let login =
        |features: &Vec<Feature>| crate::inputs::login::login(b"s\0", b"d\0", features, &[0xFF]);
    let whole: Vec<Vec<u8>> = lists.iter().map(login).collect();
    let longest = whole.last().expect("a login with features").clone();
    let cuts = [0, 27, 28, 55, 56, 59, 60, 71, 72, 93, 94, longest.len() - 1];
    whole.into_iter().chain(cuts.map(|length| longest[..length].to_vec())).collect()
}

fn logins(vectors: Vectors) {
    let mut random = vectors.random("ids");
    for body in vectors.inputs("login", login_cases(), any_login) {
        let login = login(&body);
        let count = login.features.len();
        let lent = random.pick(&[count, count, count + 1, count + 20, count.saturating_sub(1), 0]);
        let answer = if lent < count { Err(SHORT_BUFFER) } else { Ok(login_words(&login)) };
        print_line("parse_login7", &[lent.to_string(), packed(&body)], &words(answer));
    }
}

/// The slots, the number of ids, and the ids.
fn login_words(login: &Login) -> String {
    let ids: Vec<u64> = login.features.iter().map(|id| u64::from(*id)).collect();
    joined(&[login.slots(), vec![ids.len() as u64], ids].concat())
}

/// The login's own text, or the fallback.
fn databases(vectors: Vectors) {
    let mut random = vectors.random("fallback");
    for body in vectors.inputs("database", login_cases(), any_login) {
        let fallback: &[u8] = random.pick(&[&b""[..], b"m\0", &[0x00, 0xD8, 0x41]]);
        let opened = login(&body).database.map_or(fallback, |part| part.of(&body));
        print_line("database", &[packed(fallback), packed(&body)], &packed(opened));
    }
}
