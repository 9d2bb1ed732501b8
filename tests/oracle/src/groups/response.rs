//! All other replies: prelogin, login, routing, attention, transaction, info and error replies.

use super::Size;
use crate::answers::reply::{LONGEST_RESULT, limited};
use crate::answers::response::*;
use crate::compare::{Check, Expected};
use crate::hex::hex;
use crate::inputs::damaged;
use crate::inputs::response::*;
use crate::protocol::*;
use crate::random::Random;
use crate::refusal::*;
use crate::script::LONGEST_NAME;
use crate::script::records::{self, DATABASE_ROUTE, FEATURE, PLAIN_ROUTE, Record};
use crate::station::*;
use bytes::BytesMut;

pub fn compare(size: Size) -> Vec<Check> {
    [
        fixed_replies(),
        numbered_replies(size),
        feature_lists(size),
        pairs_of_texts(size),
        infos(size),
        errors(size),
        routes(size),
        route_lists(size),
    ]
    .into_iter()
    .flatten()
    .collect()
}

// Replies of no argument, or of truth values.

pub fn fixed_replies() -> Vec<Check> {
    let mut checks = vec![
        fixed(
            "station_build_prelogin_response",
            build_prelogin_response,
            station_build_prelogin_response,
        ),
        fixed(
            "station_build_feature_ext_ack_fedauth",
            build_feature_ext_ack_fedauth,
            station_build_feature_ext_ack_fedauth,
        ),
        fixed("station_build_login_ack", build_login_ack, station_build_login_ack),
        fixed(
            "station_build_attention_ack_packet",
            build_attention_ack_packet,
            station_build_attention_ack_packet,
        ),
    ];
    checks.extend(prelogins());
    checks
}

fn fixed(name: &'static str, rust: fn() -> BytesMut, call: fn(&mut [u8]) -> i64) -> Check {
    let mut check = Check::new(name);
    every_buffer(&mut check, "no argument", &rust(), call);
    check
}

/// The reply with a buffer of every length up to past its end.
fn every_buffer(check: &mut Check, input: &str, reply: &[u8], call: impl Fn(&mut [u8]) -> i64) {
    let whole = Expected { code: reply.len() as i64, bytes: reply, slots: &[] };
    for lent in 0..reply.len() + 20 {
        let expected = if lent < reply.len() { Expected::refused(SHORT_BUFFER) } else { whole };
        check.call(|| input.to_string(), (lent, 0), expected, |buffer, _| call(buffer));
    }
}

fn prelogins() -> Vec<Check> {
    let mut encryption = Check::new("station_build_prelogin_response_with_encryption");
    let mut fedauth = Check::new("station_build_prelogin_response_with_fedauth");
    let mut options = Check::new("station_build_prelogin_response_with_options");
    for on in [false, true] {
        let input = format!("encryption {on}");
        every_buffer(
            &mut encryption,
            &input,
            &build_prelogin_response_with_encryption(on),
            |buffer| station_build_prelogin_response_with_encryption(on, buffer),
        );
        for token in [false, true] {
            let input = format!("encryption {on} fedauth {token}");
            every_buffer(
                &mut fedauth,
                &input,
                &build_prelogin_response_with_fedauth(on, token),
                |buffer| station_build_prelogin_response_with_fedauth(on, token, buffer),
            );
            let reply = private_build_prelogin_response_with_options(on, token);
            every_buffer(&mut options, &input, &reply, |buffer| {
                station_build_prelogin_response_with_options(on, token, buffer)
            });
        }
    }
    vec![encryption, fedauth, options]
}

// Replies of numbers.

fn numbered_replies(size: Size) -> Vec<Check> {
    let mut classification = Check::new("station_build_feature_ext_ack_data_classification");
    let mut routing = Check::new("station_build_feature_ext_ack_enhanced_routing");
    for byte in 0..=0xFF {
        data_classification(&mut classification, byte);
        enhanced_routing(&mut routing, byte);
    }
    let mut transaction = Check::new("station_build_transaction_manager_response");
    for request in 0..=u16::MAX {
        transaction_response(&mut transaction, request);
    }
    let mut checks = vec![classification, routing, transaction];
    checks.extend(dones(size));
    checks
}

pub fn data_classification(check: &mut Check, version: u8) {
    let reply = limited(build_feature_ext_ack_data_classification(version));
    let call =
        |buffer: &mut [u8]| station_build_feature_ext_ack_data_classification(version, buffer);
    check.buffer(|| format!("{version}"), &reply, call);
}

pub fn enhanced_routing(check: &mut Check, byte: u8) {
    let reply = limited(build_feature_ext_ack_enhanced_routing(byte));
    let call = |buffer: &mut [u8]| station_build_feature_ext_ack_enhanced_routing(byte, buffer);
    check.buffer(|| format!("{byte}"), &reply, call);
}

pub fn transaction_response(check: &mut Check, request: u16) {
    let reply = limited(build_transaction_manager_response(request));
    let call = |buffer: &mut [u8]| station_build_transaction_manager_response(request, buffer);
    check.buffer(|| format!("{request}"), &reply, call);
}

/// All statuses, and row counts at every border of their bytes.
fn dones(size: Size) -> Vec<Check> {
    let mut bare = Check::new("station_build_done_token");
    let mut with_status = Check::new("station_build_done_token_with_status");
    let mut random = size.random("done");
    let borders = (0..64).flat_map(|bit| [(1u64 << bit) - 1, 1 << bit]).chain([u64::MAX]);
    let anything = (0..size.count(1_000, 20_000)).map(|_| random.next());
    let counts: Vec<u64> = borders.chain(anything).collect();
    for count in &counts {
        done(&mut bare, *count);
    }
    for (place, status) in (0..=u16::MAX).enumerate() {
        done_with_status(&mut with_status, status, counts[place % counts.len()]);
    }
    vec![bare, with_status]
}

pub fn done(check: &mut Check, count: u64) {
    let reply = limited(build_done_token(count));
    let call = |buffer: &mut [u8]| station_build_done_token(count, buffer);
    check.buffer(|| format!("{count}"), &reply, call);
}

pub fn done_with_status(check: &mut Check, status: u16, count: u64) {
    let reply = limited(build_done_token_with_status(status, count));
    let call = |buffer: &mut [u8]| station_build_done_token_with_status(status, count, buffer);
    check.buffer(|| format!("status {status:04X} count {count}"), &reply, call);
}

// Replies of a list of features.

fn feature_lists(size: Size) -> Vec<Check> {
    let mut check = Check::new("station_build_feature_ext_ack");
    let mut random = size.random("features");
    for list in lists(&mut random, size, FEATURE, random_feature) {
        feature_list(&mut check, &list);
    }
    for id in 0..=0xFF {
        feature_list(&mut check, &records::written(&[Record::new(FEATURE, [id, 1, 2])]));
    }
    for data in LONGEST_RESULT - 16..=LONGEST_RESULT {
        let one = Record::new(FEATURE, vec![5; 1 + data - 5]);
        feature_list(&mut check, &records::written(std::slice::from_ref(&one)));
        feature_list(&mut check, &records::written(&[one, Record::new(FEATURE, [])]));
    }
    vec![check]
}

pub fn feature_list(check: &mut Check, list: &[u8]) {
    let reply = features_of(list).and_then(|features| limited(build_feature_ext_ack(&features)));
    check.buffer(|| hex(list), &reply, |buffer| station_build_feature_ext_ack(list, buffer));
}

/// Lists of no record to five, cut at every byte, with wrong kinds and shapes, and damaged.
fn lists(
    random: &mut Random,
    size: Size,
    kind: u16,
    record: impl Fn(&mut Random) -> Record,
) -> Vec<Vec<u8>> {
    let mut lists = vec![Vec::new()];
    for count in 1..=5 {
        let good: Vec<Record> = (0..count).map(|_| record(random)).collect();
        let bytes = records::written(&good);
        lists.extend((0..=bytes.len()).map(|length| bytes[..length].to_vec()));
        for place in 0..count {
            for wrong in [0, 1, 2, 5, 0x10, 0x11, 0x12, 0x13, 0x14, 0x0113, 0x0211, 0x1300, 0xFFFF]
            {
                let mut bad = good.clone();
                bad[place].kind = wrong;
                lists.push(records::written(&bad));
                bad[place].payload = vec![0x41; usize::from(wrong % 4)];
                lists.push(records::written(&bad));
            }
            for payload in [&[][..], &[1], &[0x00, 0xD8], &[0x3D, 0xD8, 0x00, 0xDE], &[0, 0xDC, 1]]
            {
                let mut bad = good.clone();
                bad[place] = Record::new(kind, payload);
                lists.push(records::written(&bad));
            }
        }
    }
    for _ in 0..size.count(10_000, 200_000) {
        let count = random.within(0, 5);
        let good: Vec<Record> = (0..count).map(|_| record(random)).collect();
        let good = records::written(&good);
        lists.push(if random.one_in(2) { damaged(random, &good) } else { good });
    }
    lists
}

// Replies of two texts.

fn pairs_of_texts(size: Size) -> Vec<Check> {
    let mut challenge = Check::new("station_build_fedauth_challenge_response");
    let mut token = Check::new("station_build_fedauth_info_token");
    let mut random = size.random("fedauth");
    let most = (LONGEST_RESULT - build_fedauth_challenge_response("", "").len()) / 2;
    let most_bare = (LONGEST_RESULT - private_build_fedauth_info_token("", "").len()) / 2;
    let random_calls = size.count(10_000, 200_000);
    for texts in text_lists(&mut random, 2, &[most, most_bare], random_calls) {
        fedauth_infos([&mut challenge, &mut token], &texts[0], &texts[1]);
    }
    vec![challenge, token]
}

/// In a packet after its acknowledgement, and by itself.
pub fn fedauth_infos([challenge, token]: [&mut Check; 2], url: &[u8], spn: &[u8]) {
    let input = || format!("url {} spn {}", hex(url), hex(spn));
    let arguments = argument(url).and_then(|url| Ok((url, argument(spn)?)));
    let reply = |build: fn(&str, &str) -> BytesMut| {
        arguments.clone().and_then(|(url, spn)| limited(build(&url, &spn)))
    };
    challenge.buffer(input, &reply(build_fedauth_challenge_response), |buffer| {
        station_build_fedauth_challenge_response(url, spn, buffer)
    });
    token.buffer(input, &reply(private_build_fedauth_info_token), |buffer| {
        station_build_fedauth_info_token(url, spn, buffer)
    });
}

/// Lists of `count` text arguments: every choice of short, odd and ill-formed ones; texts of
/// `most` units and one less and more in each place; random ones.
fn text_lists(
    random: &mut Random,
    count: usize,
    most: &[usize],
    random_lists: usize,
) -> Vec<Vec<Vec<u8>>> {
    let short = short_texts();
    let choices = short.len().pow(count as u32);
    let mut lists: Vec<Vec<Vec<u8>>> = (0..choices)
        .map(|choice| {
            (0..count as u32)
                .map(|place| short[choice / short.len().pow(place) % short.len()].clone())
                .collect()
        })
        .collect();
    for units in most.iter().flat_map(|most| [most - 1, *most, most + 1]) {
        for text in long_texts(units) {
            for place in 0..count {
                let mut list = vec![Vec::new(); count];
                list[place] = text.clone();
                lists.push(list);
            }
            let half = text.len() / 4 * 2;
            let mut list = vec![Vec::new(); count];
            list[0] = text[..half].to_vec();
            list[count - 1].extend(&text[half..]);
            lists.push(list);
        }
    }
    for _ in 0..random_lists {
        lists.push((0..count).map(|_| random_argument(random)).collect());
    }
    lists
}

// Info tokens.

fn infos(size: Size) -> Vec<Check> {
    let mut check = Check::new("station_build_info_token");
    let mut random = size.random("info");
    let empty = info_message((0, 0, 0, 0), ["", "", ""].map(String::from));
    let most = (LONGEST_RESULT - build_info_token(&empty).len()) / 2;
    let mut lists = text_lists(&mut random, 3, &[LONGEST_NAME, most], size.count(10_000, 200_000));
    for server in 254..=257 {
        for procedure in 254..=257 {
            for message in [0, most - 511, most - 510, most - 509, most] {
                lists.push([message, server, procedure].map(|units| b"x\0".repeat(units)).to_vec());
            }
        }
    }
    for texts in lists {
        let numbers = (random.number(), random.byte(), random.byte(), random.number());
        info(&mut check, numbers, [&texts[0], &texts[1], &texts[2]]);
    }
    for number in [0, 1, 0x7FFF_FFFF, 0x8000_0000, 0xFFFF_FFFF] {
        for byte in [0, 1, 0x7F, 0x80, 0xFF] {
            info(&mut check, (number, byte, !byte, !number), [b"m\0", b"s\0", b"p\0"]);
        }
    }
    vec![check]
}

pub fn info(check: &mut Check, numbers: (u32, u8, u8, u32), texts: [&[u8]; 3]) {
    let [message, server, procedure] = texts;
    let (number, state, severity, line) = numbers;
    let input = || {
        let texts = texts.map(hex);
        format!("number {number} state {state} severity {severity} texts {texts:?} line {line}")
    };
    check.buffer(input, &info_reply(numbers, texts), |buffer| {
        station_build_info_token(number, state, severity, message, server, procedure, line, buffer)
    });
}

// Errors.

/// A leading and a terminal error, and the error response, which has a text alone.
pub fn all_errors(checks: [&mut Check; 3], number: u32, severity: u8, text: &[u8]) {
    let [leading, terminal, response] = checks;
    let input = || format!("number {number} severity {severity} text {}", hex(text));
    let tokens = argument(text).map(|text| error_tokens(number, severity, &text));
    let reply = tokens.clone().and_then(|(leading, _)| limited(leading));
    leading.buffer(input, &reply, |buffer| {
        station_build_leading_error_tokens(number, severity, text, buffer)
    });
    let reply = tokens.and_then(|(_, terminal)| limited(terminal));
    terminal.buffer(input, &reply, |buffer| {
        station_build_terminal_error_tokens(number, severity, text, buffer)
    });
    let reply = argument(text).and_then(|text| limited(build_error_response(&text)));
    response.buffer(|| hex(text), &reply, |buffer| station_build_error_response(text, buffer));
}

fn errors(size: Size) -> Vec<Check> {
    let mut leading = Check::new("station_build_leading_error_tokens");
    let mut terminal = Check::new("station_build_terminal_error_tokens");
    let mut response = Check::new("station_build_error_response");
    let mut random = size.random("error");
    let most = (LONGEST_RESULT - build_error_response("").len()) / 2;
    let most_bare = (LONGEST_RESULT - error_tokens(0, 0, "").0.len()) / 2;
    let borders = [1, 255, 256, 21_845, 21_846, 21_847, 32_767, most, most_bare];
    for texts in text_lists(&mut random, 1, &borders, size.count(10_000, 200_000)) {
        let (number, severity) = (random.number(), random.byte());
        all_errors([&mut leading, &mut terminal, &mut response], number, severity, &texts[0]);
    }
    vec![leading, terminal, response]
}

// Routing.

fn routes(size: Size) -> Vec<Check> {
    let mut token = Check::new("station_build_routing_envchange_token");
    let mut response = Check::new("station_build_routing_response");
    let mut enhanced = Check::new("station_build_enhanced_routing_envchange_token");
    let mut random = size.random("route");
    let most = [
        build_routing_envchange_token("", 0),
        build_routing_response("", 0),
        build_enhanced_routing_envchange_token("", 0, ""),
    ]
    .map(|reply| (LONGEST_RESULT - reply.len()) / 2);
    for texts in text_lists(&mut random, 2, &most, size.count(10_000, 200_000)) {
        let port = random.pick(&PORTS);
        all_routes([&mut token, &mut response, &mut enhanced], &texts[0], port, &texts[1]);
    }
    vec![token, response, enhanced]
}

fn route_lists(size: Size) -> Vec<Check> {
    let mut check = Check::new("station_build_routing_login_response");
    let mut random = size.random("routes");
    let lists = lists(&mut random, size, DATABASE_ROUTE, random_route);
    for list in &lists {
        let host = random_argument(&mut random);
        route_list(&mut check, random_routing(&mut random, &host), list);
    }
    every_routing(&mut check);
    long_route_lists(&mut check);
    vec![check]
}

/// Every short host, acknowledgement and order, with no route, a plain one, one to a database,
/// both, and a list that is refused.
fn every_routing(check: &mut Check) {
    let plain = Record::new(PLAIN_ROUTE, []);
    let database = Record::new(DATABASE_ROUTE, b"d\0".to_vec());
    let lists = [
        vec![],
        vec![plain.clone()],
        vec![database.clone()],
        vec![database, plain],
        vec![Record::new(DATABASE_ROUTE, [0x00, 0xD8])],
        vec![Record::new(PLAIN_ROUTE, [0])],
        vec![Record::new(FEATURE, [0])],
    ];
    for list in lists.map(|list| records::written(&list)) {
        for host in short_texts() {
            for (login_ack, ack_before) in
                [(false, false), (false, true), (true, false), (true, true)]
            {
                for ack in (0..=0xFF).map(Some).chain([None]) {
                    let routing = Routing { host: &host, port: 1433, login_ack, ack, ack_before };
                    route_list(check, routing, &list);
                }
            }
        }
    }
}

/// A plain route as a token and as a response, and a route to a database.
pub fn all_routes(checks: [&mut Check; 3], host: &[u8], port: u16, database: &[u8]) {
    let [token, response, enhanced] = checks;
    let input = || format!("host {} port {port} database {}", hex(host), hex(database));
    let host_text = argument(host);
    let reply =
        host_text.clone().and_then(|host| limited(build_routing_envchange_token(&host, port)));
    token.buffer(input, &reply, |buffer| station_build_routing_envchange_token(host, port, buffer));
    let reply = host_text.clone().and_then(|host| limited(build_routing_response(&host, port)));
    response.buffer(input, &reply, |buffer| station_build_routing_response(host, port, buffer));
    let reply = host_text.and_then(|host| {
        let database = argument(database)?;
        limited(build_enhanced_routing_envchange_token(&host, port, &database))
    });
    enhanced.buffer(input, &reply, |buffer| {
        station_build_enhanced_routing_envchange_token(host, port, database, buffer)
    });
}

/// A routed login by the number of its acknowledgement, 256 and above for none, for tests/fuzz.
#[allow(dead_code)]
pub fn routed_login(
    check: &mut Check,
    (host, port): (&[u8], u16),
    list: &[u8],
    (login_ack, ack, ack_before): (bool, u16, bool),
) {
    let routing = Routing { host, port, login_ack, ack: ack.try_into().ok(), ack_before };
    let input = || {
        let (host, list) = (hex(host), hex(list));
        format!("host {host} port {port} routes {list} {login_ack} ack {ack} {ack_before}")
    };
    check.buffer(input, &routing_reply(routing, list), |buffer| {
        station_build_routing_login_response(host, port, list, login_ack, ack, ack_before, buffer)
    });
}

/// Replies of 65,535 bytes and around it, by the host, a database text, and the number of routes.
fn long_route_lists(check: &mut Check) {
    let plain = records::written(&[Record::new(PLAIN_ROUTE, [])]);
    let empty = records::written(&[Record::new(DATABASE_ROUTE, [])]);
    for (login_ack, ack) in [(false, None), (false, Some(1)), (true, None), (true, Some(1))] {
        let routing = Routing { host: b"h\0", port: 1, login_ack, ack, ack_before: login_ack };
        let length = |list: &[u8]| routing_reply(routing, list).expect("a short reply").len();
        for near in 0..4 {
            let host = b"h\0".repeat((LONGEST_RESULT - length(&plain)) / 2 + near - 1);
            route_list(check, Routing { host: &host, ..routing }, &plain);
            let database = b"d\0".repeat((LONGEST_RESULT - length(&empty)) / 2 + near - 2);
            let list = records::written(&[Record::new(DATABASE_ROUTE, database)]);
            route_list(check, routing, &list);
        }
        let each = length(&plain.repeat(2)) - length(&plain);
        let most = 1 + (LONGEST_RESULT - length(&plain)) / each;
        for count in most - 2..=most + 2 {
            route_list(check, routing, &plain.repeat(count));
        }
    }
}

fn route_list(check: &mut Check, routing: Routing, list: &[u8]) {
    let Routing { host, port, login_ack, ack, ack_before } = routing;
    let input = || {
        let (host, list) = (hex(host), hex(list));
        format!(
            "host {host} port {port} routes {list} login_ack {login_ack} ack {ack:?} before {ack_before}"
        )
    };
    check.buffer(input, &routing_reply(routing, list), |buffer| {
        let ack = ack.map_or(NO_ACK, u16::from);
        station_build_routing_login_response(host, port, list, login_ack, ack, ack_before, buffer)
    });
}
