//! All other replies.

use super::{Vectors, print_built, print_every_lent};
use crate::answers::packets::payload_in_packets;
use crate::answers::reply::limited;
use crate::answers::response::*;
use crate::hex::packed;
use crate::inputs::damaged;
use crate::inputs::response::*;
use crate::protocol::*;
use crate::random::Random;
use crate::refusal::Answer;
use crate::script::records::{self, DATABASE_ROUTE, FEATURE, PLAIN_ROUTE, Record};

pub fn print(vectors: Vectors) {
    fixed();
    numbered(vectors);
    features(vectors);
    pairs_of_texts(vectors);
    infos(vectors);
    errors(vectors);
    routes(vectors);
    route_lists(vectors);
    payloads(vectors);
}

/// Payloads cut into packets: of k times what a packet holds, one byte less and more; the longest, and
/// one more; none.
fn payloads(vectors: Vectors) {
    let mut random = vectors.random("cut_payload");
    let lengths = [0, 1, 13, 503, 504, 505, 1_007, 1_008, 1_009, 65_527, 65_528];
    for length in lengths {
        for size in [512, 513, 4_096, 32_767, 511, 32_768] {
            let payload = vec![random.byte(); length];
            let answer = payload_in_packets(&payload, size);
            let given = [packed(&payload), size.to_string()];
            print_built(&mut random, "cut_payload", &given, &answer);
        }
    }
}

fn flag(on: bool) -> String {
    u8::from(on).to_string()
}

/// Replies of no argument, or of truth values, with buffers of every border.
fn fixed() {
    print_every_lent("build_prelogin_response", &[], &build_prelogin_response());
    for on in [false, true] {
        let reply = build_prelogin_response_with_encryption(on);
        print_every_lent("build_prelogin_response_with_encryption", &[flag(on)], &reply);
    }
    let both = [(false, false), (false, true), (true, false), (true, true)];
    for (on, token) in both {
        let reply = build_prelogin_response_with_fedauth(on, token);
        let flags = [flag(on), flag(token)];
        print_every_lent("build_prelogin_response_with_fedauth", &flags, &reply);
    }
    for (on, token) in both {
        let reply = private_build_prelogin_response_with_options(on, token);
        let flags = [flag(on), flag(token)];
        print_every_lent("build_prelogin_response_with_options", &flags, &reply);
    }
    print_every_lent("build_feature_ext_ack_fedauth", &[], &build_feature_ext_ack_fedauth());
    print_every_lent("build_login_ack", &[], &build_login_ack());
    print_every_lent("build_attention_ack_packet", &[], &build_attention_ack_packet());
}

/// Replies of numbers.
fn numbered(vectors: Vectors) {
    let mut random = vectors.random("numbers");
    let bytes = [0, 1, 2, 3, 4, 5, 0x7F, 0x80, 0xFE, 0xFF];
    for byte in bytes {
        let reply = limited(build_feature_ext_ack_data_classification(byte));
        let name = "build_feature_ext_ack_data_classification";
        print_built(&mut random, name, &[byte.to_string()], &reply);
    }
    for byte in bytes {
        let reply = limited(build_feature_ext_ack_enhanced_routing(byte));
        let name = "build_feature_ext_ack_enhanced_routing";
        print_built(&mut random, name, &[byte.to_string()], &reply);
    }
    for kind in (0..=16).chain([0x0105, 0x0500, 0x0700, 0x0800, 0x7FFF, 0x8005, 0xFFFF]) {
        let reply = limited(build_transaction_manager_response(kind));
        let name = "build_transaction_manager_response";
        print_built(&mut random, name, &[kind.to_string()], &reply);
    }
    let borders = (0..64).step_by(8).flat_map(|bit| [(1u64 << bit) - 1, 1 << bit]);
    let counts: Vec<u64> = borders.chain([u64::MAX, random.next(), random.next()]).collect();
    for count in &counts {
        let reply = limited(build_done_token(*count));
        print_built(&mut random, "build_done_token", &[count.to_string()], &reply);
    }
    for status in (0..16).map(|bit| 1 << bit).chain([0, 3, 0x11, 0xFFFF]) {
        let count = random.pick(&counts);
        let reply = limited(build_done_token_with_status(status, count));
        let numbers = [status.to_string(), count.to_string()];
        print_built(&mut random, "build_done_token_with_status", &numbers, &reply);
    }
}

/// Lists of no record to three of a kind, at times damaged, and with each fault.
fn lists(
    vectors: Vectors,
    random: &mut Random,
    kind: u16,
    record: impl Fn(&mut Random) -> Record,
) -> Vec<Vec<u8>> {
    let good = records::written(&[Record::new(kind, b"d\0"), Record::new(kind, b"e\0")]);
    let mut lists: Vec<Vec<u8>> = vec![Vec::new(), good.clone()];
    lists.extend([1, 5, 7, good.len() - 1].map(|length| good[..length].to_vec()));
    for kind in [0, PLAIN_ROUTE, DATABASE_ROUTE, FEATURE, 0x0113, 0x1300] {
        for payload in [&[][..], &[1], &[0x00, 0xD8], &[0x3D, 0xD8, 0x00, 0xDE], &[0x41, 0]] {
            lists.push(records::written(&[Record::new(kind, payload)]));
        }
    }
    for _ in 0..vectors.count {
        let several: Vec<Record> = (0..random.below(4)).map(|_| record(random)).collect();
        let list = records::written(&several);
        lists.push(if random.one_in(3) { damaged(random, &list) } else { list });
    }
    lists
}

fn features(vectors: Vectors) {
    let mut random = vectors.random("features");
    let mut lists = lists(vectors, &mut random, FEATURE, random_feature);
    lists.push(records::written(&[Record::new(FEATURE, [0xFF, 1])]));
    // 65,535 bytes of tokens and one more: two bytes and five a feature besides the data.
    for data in [65_528, 65_529] {
        lists.push(records::written(&[Record::new(FEATURE, vec![5; 1 + data])]));
    }
    for list in lists {
        let reply =
            features_of(&list).and_then(|features| limited(build_feature_ext_ack(&features)));
        print_built(&mut random, "build_feature_ext_ack", &[packed(&list)], &reply);
    }
}

/// The text of document 01's case 11, short texts, then random ones.
fn texts(vectors: Vectors, random: &mut Random) -> Vec<Vec<u8>> {
    let mut texts = vec![b"\xE9\0".to_vec()];
    texts.extend(short_texts());
    texts.extend((0..vectors.count).map(|_| random_argument(random)));
    texts
}

/// Pairs of texts: each short one first and second, then random ones.
fn text_pairs(vectors: Vectors, random: &mut Random) -> Vec<[Vec<u8>; 2]> {
    let good = b"g\0".to_vec();
    let mut pairs = Vec::new();
    for text in short_texts() {
        pairs.push([text.clone(), good.clone()]);
        pairs.push([good.clone(), text.clone()]);
        pairs.push([text, vec![0x41]]);
    }
    for _ in 0..vectors.count {
        pairs.push([random_argument(random), random_argument(random)]);
    }
    pairs
}

/// A text of the most units that a reply takes besides so many bytes, and one unit more.
fn longest(besides: usize) -> [Vec<u8>; 2] {
    let units = (65_535 - besides) / 2;
    [units, units + 1].map(|units| b"x\0".repeat(units))
}

fn pairs_of_texts(vectors: Vectors) {
    type Build = fn(&str, &str) -> bytes::BytesMut;
    let builders: [(&str, Build); 2] = [
        ("build_fedauth_challenge_response", build_fedauth_challenge_response),
        ("build_fedauth_info_token", private_build_fedauth_info_token),
    ];
    for (name, build) in builders {
        let mut random = vectors.random(name);
        let mut pairs = text_pairs(vectors, &mut random);
        pairs.extend(longest(build("", "").len()).map(|text| [text, Vec::new()]));
        for [url, spn] in pairs {
            let reply = argument(&url)
                .and_then(|url| Ok((url, argument(&spn)?)))
                .and_then(|(url, spn)| limited(build(&url, &spn)));
            print_built(&mut random, name, &[packed(&url), packed(&spn)], &reply);
        }
    }
}

fn infos(vectors: Vectors) {
    let mut random = vectors.random("info");
    for [message, server, procedure] in info_texts(vectors, &mut random) {
        let (number, state, severity, line) =
            (random.number(), random.byte(), random.byte(), random.number());
        let reply = info_reply((number, state, severity, line), [&message, &server, &procedure]);
        let arguments = [
            number.to_string(),
            state.to_string(),
            severity.to_string(),
            packed(&message),
            packed(&server),
            packed(&procedure),
            line.to_string(),
        ];
        print_built(&mut random, "build_info_token", &arguments, &reply);
    }
}

/// Messages, servers and procedures: each short text in each place, names and tokens at their
/// borders, all faults at once, random ones.
fn info_texts(vectors: Vectors, random: &mut Random) -> Vec<[Vec<u8>; 3]> {
    let mut lists: Vec<[Vec<u8>; 3]> = Vec::new();
    for text in short_texts() {
        for place in 0..3 {
            let mut texts = [b"m\0", b"s\0", b"p\0"].map(|text| text.to_vec());
            texts[place] = text.clone();
            lists.push(texts);
        }
    }
    for (message, server, procedure) in [(0, 255, 255), (1, 256, 0), (1, 0, 256), (0, 256, 300)] {
        lists.push([message, server, procedure].map(|units| b"x\0".repeat(units)));
    }
    lists.push([vec![0x41], vec![0x3D, 0xD8], b"x\0".repeat(256)]);
    let empty = info_reply((0, 0, 0, 0), [&[], &[], &[]]).expect("a short token").len();
    lists.extend(longest(empty).map(|text| [text, Vec::new(), Vec::new()]));
    lists.extend((0..vectors.count).map(|_| [(); 3].map(|()| random_argument(random))));
    lists
}

fn errors(vectors: Vectors) {
    type Build = fn(u32, u8, &str) -> Vec<u8>;
    let builders: [(&str, Build); 2] = [
        ("build_leading_error_tokens", |number, severity, text| {
            error_tokens(number, severity, text).0.to_vec()
        }),
        ("build_terminal_error_tokens", |number, severity, text| {
            error_tokens(number, severity, text).1.to_vec()
        }),
    ];
    for (name, build) in builders {
        let mut random = vectors.random(name);
        let mut texts = texts(vectors, &mut random);
        texts.extend(longest(build(0, 0, "").len()));
        for text in texts {
            let (number, severity) = (random.number(), random.byte());
            let reply = argument(&text).and_then(|text| limited(build(number, severity, &text)));
            let arguments = [number.to_string(), severity.to_string(), packed(&text)];
            print_built(&mut random, name, &arguments, &reply);
        }
    }
    error_responses(vectors);
}

/// The error reply: its count is the text's bytes as UTF-8, modulo 65,536.
fn error_responses(vectors: Vectors) {
    let mut random = vectors.random("error");
    let mut texts = texts(vectors, &mut random);
    texts.extend(longest(build_error_response("").len()));
    for units in [255, 256, 21_845, 21_846, 32_767] {
        texts.extend(long_texts(units));
    }
    for text in texts {
        let reply = argument(&text).and_then(|text| limited(build_error_response(&text)));
        print_built(&mut random, "build_error_response", &[packed(&text)], &reply);
    }
}

fn routes(vectors: Vectors) {
    type Build = fn(&str, u16) -> bytes::BytesMut;
    let builders: [(&str, Build); 2] = [
        ("build_routing_envchange_token", build_routing_envchange_token),
        ("build_routing_response", build_routing_response),
    ];
    for (name, build) in builders {
        let mut random = vectors.random(name);
        let mut texts = texts(vectors, &mut random);
        texts.extend(longest(build("", 0).len()));
        // Document 01's case 10 comes first.
        let first = (b"a\0".to_vec(), 1433);
        let others = texts.into_iter().map(|host| (host, random.pick(&PORTS))).collect::<Vec<_>>();
        for (host, port) in std::iter::once(first).chain(others) {
            let reply = argument(&host).and_then(|host| limited(build(&host, port)));
            print_built(&mut random, name, &[packed(&host), port.to_string()], &reply);
        }
    }
    database_routes(vectors);
}

fn database_routes(vectors: Vectors) {
    let mut random = vectors.random("database route");
    let mut pairs = text_pairs(vectors, &mut random);
    let besides = build_enhanced_routing_envchange_token("", 0, "").len();
    pairs.extend(longest(besides).map(|text| [Vec::new(), text]));
    for [host, database] in pairs {
        let port = random.pick(&PORTS);
        let reply = argument(&host).and_then(|host| {
            let database = argument(&database)?;
            limited(build_enhanced_routing_envchange_token(&host, port, &database))
        });
        let arguments = [packed(&host), port.to_string(), packed(&database)];
        print_built(&mut random, "build_enhanced_routing_envchange_token", &arguments, &reply);
    }
}

fn route_lists(vectors: Vectors) {
    let mut random = vectors.random("routes");
    let lists = lists(vectors, &mut random, DATABASE_ROUTE, random_route);
    for list in lists {
        let host = random_argument(&mut random);
        let routing = random_routing(&mut random, &host);
        route_list(&mut random, routing, &list);
    }
    let plain = records::written(&[Record::new(PLAIN_ROUTE, [])]);
    for (login_ack, ack_before) in [(false, false), (false, true), (true, false), (true, true)] {
        for ack in [None, Some(0), Some(1), Some(0xFF)] {
            let routing = Routing { host: b"h\0", port: 1433, login_ack, ack, ack_before };
            route_list(&mut random, routing, &plain);
            let bad = Routing { host: &[0x41], ..routing };
            route_list(&mut random, bad, &plain[1..]);
        }
    }
    let empty = Routing { host: &[], port: 1, login_ack: true, ack: Some(1), ack_before: false };
    let besides = routing_reply(empty, &plain).expect("a short reply").len();
    for host in longest(besides) {
        route_list(&mut random, Routing { host: &host, ..empty }, &plain);
    }
}

fn route_list(random: &mut Random, routing: Routing, list: &[u8]) {
    let Routing { host, port, login_ack, ack, ack_before } = routing;
    let arguments = [
        packed(host),
        port.to_string(),
        packed(list),
        flag(login_ack),
        ack.map_or(NO_ACK, u16::from).to_string(),
        flag(ack_before),
    ];
    let reply: Answer<Vec<u8>> = routing_reply(routing, list);
    print_built(random, "build_routing_login_response", &arguments, &reply);
}
