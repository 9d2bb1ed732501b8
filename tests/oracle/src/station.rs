//! The exports of the static library `station`, under the feature of their group, each as a function
//! that lends slices to what include/station.rs declares.
//!
//! `bytes` is a slice that is read, `buffer` one that is written, `slots` a slice of numbers that
//! are written. Each is lent as a pointer and a length.

/// The declarations as any user in Rust takes them; some of the constants are not used here.
#[allow(dead_code)]
mod declared {
    include!("../../../include/station.rs");
}

/// A function for each export. Not every program that takes this file calls all of them.
macro_rules! exports {
    ($($group:literal: $($name:ident($($parameter:ident: $kind:ident),*);)*)*) => {
        $($(
            #[cfg(feature = $group)]
            #[allow(clippy::too_many_arguments, dead_code)]
            pub fn $name($($parameter: parameter!($kind)),*) -> i64 {
                lend!($name [] $($parameter: $kind,)*)
            }
        )*)*
    };
}

macro_rules! parameter {
    (bytes) => {
        &[u8]
    };
    (buffer) => {
        &mut [u8]
    };
    (slots) => {
        &mut [u64]
    };
    ($number:ident) => {
        $number
    };
}

/// The call, one argument after the other.
macro_rules! lend {
    ($name:ident [$($done:expr,)*] $slice:ident: bytes, $($rest:tt)*) => {
        lend!($name [$($done,)* $slice.as_ptr(), $slice.len(),] $($rest)*)
    };
    ($name:ident [$($done:expr,)*] $slice:ident: buffer, $($rest:tt)*) => {
        lend!($name [$($done,)* $slice.as_mut_ptr(), $slice.len(),] $($rest)*)
    };
    ($name:ident [$($done:expr,)*] $slice:ident: slots, $($rest:tt)*) => {
        lend!($name [$($done,)* $slice.as_mut_ptr(), $slice.len(),] $($rest)*)
    };
    ($name:ident [$($done:expr,)*] $number:ident: $kind:ident, $($rest:tt)*) => {
        lend!($name [$($done,)* $number,] $($rest)*)
    };
    ($name:ident [$($done:expr,)*]) => {
        // SAFETY: each pointer goes with the length of the slice that is lent for the call.
        unsafe { declared::$name($($done),*) }
    };
}

exports! {
    "header":
    station_parse_header(header: bytes, out: slots);
    station_write_header(
        packet_type: u8, status: u8, length: u16, spid: u16, number: u8, window: u8, reply: buffer
    );

    "text":
    station_is_whitespace(unit: u16);
    station_text(text: bytes, out: slots);

    "request":
    station_parse_sql_batch(body: bytes, out: slots);
    station_parse_fedauth_token(payload: bytes, out: slots);
    station_parse_transaction_manager_request(body: bytes);
    station_parse_transaction_descriptor_header(body: bytes, out: slots);
    station_parse_rpc_request(body: bytes, number: u64, out: slots);

    "capture":
    station_capture_marks(capture: bytes, out: slots);

    "labels":
    station_read_label(value: bytes, buffer: buffer);
    station_write_label(text: bytes, buffer: buffer);

    "login":
    station_parse_login7(body: bytes, ids: buffer, out: slots);
    station_database(body: bytes, fallback: bytes, out: slots);

    "result":
    station_build_query_results(script: bytes, reply: buffer);
    station_build_query_result(script: bytes, reply: buffer);
    station_build_query_result_with_trailing_info(script: bytes, reply: buffer);
    station_build_query_result_with_extras(script: bytes, reply: buffer);
    station_build_query_results_in_packets(script: bytes, size: usize, reply: buffer);
    station_room(script: bytes);
    station_room_in_packets(script: bytes, size: usize);
    station_fit(script: bytes, out: slots);
    station_fresh(position: slots);
    station_step(packets: bytes, position: slots, out: slots);
    station_payload(packets: bytes, buffer: buffer);

    "response":
    station_cut_payload(payload: bytes, size: usize, reply: buffer);
    station_build_prelogin_response(reply: buffer);
    station_build_prelogin_response_with_encryption(encryption: bool, reply: buffer);
    station_build_prelogin_response_with_fedauth(encryption: bool, fedauth: bool, reply: buffer);
    station_build_prelogin_response_with_options(encryption: bool, fedauth: bool, reply: buffer);
    station_build_feature_ext_ack_fedauth(reply: buffer);
    station_build_feature_ext_ack_data_classification(version: u8, reply: buffer);
    station_build_feature_ext_ack(features: bytes, reply: buffer);
    station_build_feature_ext_ack_enhanced_routing(is_enabled: u8, reply: buffer);
    station_build_fedauth_challenge_response(sts_url: bytes, spn: bytes, reply: buffer);
    station_build_fedauth_info_token(sts_url: bytes, spn: bytes, reply: buffer);
    station_build_login_ack(reply: buffer);
    station_build_done_token_with_status(status: u16, row_count: u64, reply: buffer);
    station_build_done_token(row_count: u64, reply: buffer);
    station_build_attention_ack_packet(reply: buffer);
    station_build_transaction_manager_response(request_type: u16, reply: buffer);
    station_build_info_token(
        number: u32, state: u8, severity: u8, message: bytes, server_name: bytes, proc_name: bytes,
        line_number: u32, reply: buffer
    );
    station_build_leading_error_tokens(number: u32, severity: u8, message: bytes, reply: buffer);
    station_build_terminal_error_tokens(number: u32, severity: u8, message: bytes, reply: buffer);
    station_build_error_response(message: bytes, reply: buffer);
    station_build_routing_envchange_token(host: bytes, port: u16, reply: buffer);
    station_build_routing_response(host: bytes, port: u16, reply: buffer);
    station_build_enhanced_routing_envchange_token(
        host: bytes, port: u16, database: bytes, reply: buffer
    );
    station_build_routing_login_response(
        host: bytes, port: u16, routes: bytes, login_ack: bool, ack: u16, ack_before_routing: bool,
        reply: buffer
    );
}
