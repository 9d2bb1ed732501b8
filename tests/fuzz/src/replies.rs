//! The other replies: the first byte of an input chooses the exports, the rest is their arguments in
//! the compact form.

use crate::compact::Draw;
use crate::compare::Check;
use crate::groups::response::*;
use crate::script::records::{self, DATABASE_ROUTE, FEATURE, PLAIN_ROUTE, Record};
use crate::wall::Wall;

/// Compares the exports that the input chooses.
pub fn compare_one(input: &[u8], walls: &mut [Wall; 3]) -> Vec<Check> {
    let mut draw = Draw::new(input);
    let choice = draw.byte() & 0x1F;
    match choice {
        0..=4 => numbers(choice, &mut draw),
        5 => {
            let list = list(&mut draw, 0, feature);
            let mut check = Check::new("station_build_feature_ext_ack");
            feature_list(&mut check, walls[0].lend(&list));
            vec![check]
        }
        6..=14 => texts(choice, &mut draw, walls),
        15 => fixed_replies(),
        _ => routes(&mut draw, walls),
    }
}

fn numbers(choice: u8, draw: &mut Draw) -> Vec<Check> {
    let name = match choice {
        0 => "station_build_feature_ext_ack_data_classification",
        1 => "station_build_feature_ext_ack_enhanced_routing",
        2 => "station_build_transaction_manager_response",
        3 => "station_build_done_token",
        _ => "station_build_done_token_with_status",
    };
    let mut check = Check::new(name);
    match choice {
        0 => data_classification(&mut check, draw.byte()),
        1 => enhanced_routing(&mut check, draw.byte()),
        2 => transaction_response(&mut check, draw.u16()),
        3 => done(&mut check, draw.u64()),
        _ => done_with_status(&mut check, draw.u16(), draw.u64()),
    }
    vec![check]
}

/// Replies of texts: two of federated authentication, an info, three of an error, three of a route.
fn texts(choice: u8, draw: &mut Draw, [one, two, three]: &mut [Wall; 3]) -> Vec<Check> {
    let texts = [(); 3].map(|()| draw.bytes());
    let [one, two, three] = [one.lend(&texts[0]), two.lend(&texts[1]), three.lend(&texts[2])];
    let (number, byte, port) = (draw.u32(), draw.byte(), draw.u16());
    match choice {
        6 | 7 => {
            let names =
                ["station_build_fedauth_challenge_response", "station_build_fedauth_info_token"];
            compared(names, |checks| fedauth_infos(checks, one, two))
        }
        8 => compared(["station_build_info_token"], |[check]| {
            info(check, (number, byte, draw.byte(), draw.u32()), [one, two, three]);
        }),
        9..=11 => {
            let names = [
                "station_build_leading_error_tokens",
                "station_build_terminal_error_tokens",
                "station_build_error_response",
            ];
            compared(names, |checks| all_errors(checks, number, byte, one))
        }
        _ => {
            let names = [
                "station_build_routing_envchange_token",
                "station_build_routing_response",
                "station_build_enhanced_routing_envchange_token",
            ];
            compared(names, |checks| all_routes(checks, one, port, two))
        }
    }
}

/// The counts of these functions after a comparison.
fn compared<const N: usize>(
    names: [&'static str; N],
    compare: impl FnOnce([&mut Check; N]),
) -> Vec<Check> {
    let mut checks = names.map(Check::new);
    compare(checks.each_mut());
    checks.into()
}

fn routes(draw: &mut Draw, [one, two, _]: &mut [Wall; 3]) -> Vec<Check> {
    let (port, ack, flags) = (draw.u16(), draw.u16(), draw.byte());
    let host = draw.bytes();
    let list = list(draw, host.len(), route);
    let route = (one.lend(&host), port);
    compared(["station_build_routing_login_response"], |[check]| {
        routed_login(check, route, two.lend(&list), (flags & 1 != 0, ack, flags & 2 != 0));
    })
}

/// More than the records of the longest reply and what is sent for each of them.
const LONGEST_LIST: usize = 100_000;

/// A list of records, for each of which `each` bytes are sent beside its own: any bytes, or records
/// of right lengths, some of them many times.
fn list(draw: &mut Draw, each: usize, record: fn(&mut Draw, u8) -> Record) -> Vec<u8> {
    if draw.byte() & 1 != 0 {
        return draw.rest().to_vec();
    }
    let mut list = Vec::new();
    let mut room = LONGEST_LIST;
    while !draw.ended() {
        let form = draw.byte();
        let bytes = records::written(&[record(draw, form)]);
        let times = if form & 0x80 != 0 { usize::from(draw.u16()) } else { 1 };
        for _ in 0..times {
            let Some(less) = room.checked_sub(bytes.len() + each) else {
                return list;
            };
            room = less;
            list.extend(&bytes);
        }
    }
    list
}

fn feature(draw: &mut Draw, form: u8) -> Record {
    let kind = if form & 0x0F == 0x0F { draw.u16() } else { FEATURE };
    Record::new(kind, draw.bytes())
}

fn route(draw: &mut Draw, form: u8) -> Record {
    match form & 0x0F {
        0..=5 => Record::new(PLAIN_ROUTE, []),
        6 => Record::new(PLAIN_ROUTE, draw.bytes()),
        0x0F => Record::new(draw.u16(), draw.bytes()),
        _ => Record::new(DATABASE_ROUTE, draw.bytes()),
    }
}
