// The station unit's calls for Rust: what include/station.h declares, which says what each call must be lent and what
// it answers. A crate that links libstation.a takes them as a module:
//
//     mod station {
//         include!("../../include/station.rs");
//     }
//
// Every edition takes this file from Rust 1.82 on. For an older compiler leave out the word `unsafe` before `extern`. A
// call is unsafe, because nothing checks that a pointer is valid for the length that follows it.

pub const STATION_VERSION_MAJOR: u32 = 5;
pub const STATION_VERSION_MINOR: u32 = 0;
pub const STATION_MOST_REPLY: usize = 65535;
pub const STATION_MOST_PACKETS: usize = 66575;

// ---- Refusals

pub const STATION_BATCH_EMPTY: i64 = 1;
pub const STATION_BATCH_TOO_SHORT: i64 = 2;
pub const STATION_HEADERS_PAST_END: i64 = 3;
pub const STATION_BATCH_NOT_UTF16: i64 = 4;
pub const STATION_TOKEN_TOO_SHORT: i64 = 5;
pub const STATION_OUTER_LENGTH: i64 = 6;
pub const STATION_INNER_LENGTH: i64 = 7;
pub const STATION_HEADER_TOO_SHORT: i64 = 8;
pub const STATION_UNKNOWN_PACKET_TYPE: i64 = 9;
pub const STATION_NO_TRANSACTION_TYPE: i64 = 10;
pub const STATION_CALL_CUT: i64 = 29;
pub const STATION_PARAMETER_CUT: i64 = 30;
pub const STATION_PARAMETER_NOT_READ: i64 = 31;
pub const STATION_HEADERS_TOO_SMALL: i64 = 35;

pub const STATION_RECORD_CUT: i64 = 11;
pub const STATION_KIND_WRONG: i64 = 12;
pub const STATION_SHAPE_WRONG: i64 = 13;
pub const STATION_TEXT_WRONG: i64 = 14;
pub const STATION_EMPTY_CHUNK: i64 = 15;
pub const STATION_NAME_TOO_LONG: i64 = 16;
pub const STATION_RESULT_TOO_LONG: i64 = 17;

pub const STATION_INPUT_TOO_LONG: i64 = 18;
pub const STATION_BUFFER_TOO_SHORT: i64 = 20;
pub const STATION_ODD_TEXT: i64 = 21;
pub const STATION_NOT_UTF16: i64 = 22;
pub const STATION_PACKET_SIZE: i64 = 32;
pub const STATION_UNIT_WITHOUT_BYTE: i64 = 36;

pub const STATION_NOT_A_REPLY: i64 = 23;
pub const STATION_CUT: i64 = 24;
pub const STATION_UNKNOWN_TOKEN: i64 = 25;
pub const STATION_INNER_WRONG: i64 = 26;
pub const STATION_TOO_MANY_COLUMNS: i64 = 27;
pub const STATION_ROW_WITHOUT_COLUMNS: i64 = 28;
pub const STATION_NOT_THE_NEXT: i64 = 33;
pub const STATION_END_BIT_WRONG: i64 = 34;

// ---- Packets and texts

pub const STATION_PACKET_SQL_BATCH: u8 = 0x01;
pub const STATION_PACKET_RPC_REQUEST: u8 = 0x03;
pub const STATION_PACKET_TABULAR_RESULT: u8 = 0x04;
pub const STATION_PACKET_ATTENTION: u8 = 0x06;
pub const STATION_PACKET_FEDAUTH_TOKEN: u8 = 0x08;
pub const STATION_PACKET_TRANSACTION_MANAGER: u8 = 0x0E;
pub const STATION_PACKET_LOGIN7: u8 = 0x10;
pub const STATION_PACKET_PRELOGIN: u8 = 0x12;

pub const STATION_STATUS_END_OF_MESSAGE: u8 = 0x01;
pub const STATION_STATUS_IGNORE: u8 = 0x02;

pub const STATION_HEADER_BYTES: usize = 8;

pub const STATION_HEADER_SLOTS: usize = 6;
pub const STATION_HEADER_TYPE: usize = 0;
pub const STATION_HEADER_STATUS: usize = 1;
pub const STATION_HEADER_LENGTH: usize = 2;
pub const STATION_HEADER_SPID: usize = 3;
pub const STATION_HEADER_NUMBER: usize = 4;
pub const STATION_HEADER_WINDOW: usize = 5;

pub const STATION_TEXT_SLOTS: usize = 4;
pub const STATION_TEXT_UNITS: usize = 0;
pub const STATION_TEXT_CHARACTERS: usize = 1;
pub const STATION_TEXT_UTF8_BYTES: usize = 2;
pub const STATION_TEXT_HAS_PAIR: usize = 3;

// ---- Requests and logins

pub const STATION_PART_SLOTS: usize = 2;
pub const STATION_PART_START: usize = 0;
pub const STATION_PART_LENGTH: usize = 1;

pub const STATION_TRANSACTION_BEGIN: u16 = 5;
pub const STATION_TRANSACTION_COMMIT: u16 = 7;
pub const STATION_TRANSACTION_ROLLBACK: u16 = 8;

pub const STATION_DESCRIPTOR_SLOTS: usize = 2;
pub const STATION_DESCRIPTOR_TRANSACTION: usize = 0;
pub const STATION_DESCRIPTOR_COUNT: usize = 1;

pub const STATION_RPC_SLOTS: usize = 19;
pub const STATION_RPC_NAMED: usize = 0;
pub const STATION_RPC_NAME_START: usize = 1;
pub const STATION_RPC_NAME_LENGTH: usize = 2;
pub const STATION_RPC_NUMBER: usize = 3;
pub const STATION_RPC_FLAGS: usize = 4;
pub const STATION_RPC_STATEMENT_START: usize = 5;
pub const STATION_RPC_STATEMENT_LENGTH: usize = 6;
pub const STATION_RPC_FOUND: usize = 7;
pub const STATION_RPC_PARAMETER_NAME_START: usize = 8;
pub const STATION_RPC_PARAMETER_NAME_LENGTH: usize = 9;
pub const STATION_RPC_PARAMETER_STATUS: usize = 10;
pub const STATION_RPC_PARAMETER_CODE: usize = 11;
pub const STATION_RPC_PARAMETER_LENGTH: usize = 12;
pub const STATION_RPC_PARAMETER_COLLATION_START: usize = 13;
pub const STATION_RPC_PARAMETER_COLLATION_LENGTH: usize = 14;
pub const STATION_RPC_VALUE_CASE: usize = 15;
pub const STATION_RPC_VALUE_NUMBER: usize = 16;
pub const STATION_RPC_VALUE_START: usize = 17;
pub const STATION_RPC_VALUE_LENGTH: usize = 18;

pub const STATION_RPC_EXECUTESQL: u64 = 10;

pub const STATION_PARAMETER_BY_REFERENCE: u64 = 0x01;
pub const STATION_PARAMETER_DEFAULT: u64 = 0x02;

pub const STATION_CAPTURE_KIND: u16 = 0x0021;
pub const STATION_CAPTURE_MARKED_BYTES: usize = 10;

pub const STATION_LOGIN_SLOTS: usize = 13;
pub const STATION_LOGIN_FEDAUTH: usize = 0;
pub const STATION_LOGIN_LIBRARY: usize = 1;
pub const STATION_LOGIN_WORKFLOW: usize = 2;
pub const STATION_LOGIN_CLASSIFICATION_VERSION: usize = 3;
pub const STATION_LOGIN_SESSION: usize = 4;
pub const STATION_LOGIN_TOKEN_START: usize = 5;
pub const STATION_LOGIN_TOKEN_LENGTH: usize = 6;
pub const STATION_LOGIN_SERVER_START: usize = 7;
pub const STATION_LOGIN_SERVER_LENGTH: usize = 8;
pub const STATION_LOGIN_USER_AGENT_START: usize = 9;
pub const STATION_LOGIN_USER_AGENT_LENGTH: usize = 10;
pub const STATION_LOGIN_DATABASE_START: usize = 11;
pub const STATION_LOGIN_DATABASE_LENGTH: usize = 12;

pub const STATION_NO_BYTE: u64 = 256;
pub const STATION_NO_PART: u64 = u64::MAX;

// ---- Scripts and their replies

pub const STATION_RECORD_SET: u16 = 1;
pub const STATION_RECORD_COLUMN: u16 = 2;
pub const STATION_RECORD_INFO: u16 = 3;
pub const STATION_RECORD_ROW: u16 = 4;
pub const STATION_RECORD_CELL: u16 = 5;
pub const STATION_RECORD_CHUNK: u16 = 6;
pub const STATION_RECORD_LEADING_ERROR: u16 = 7;
pub const STATION_RECORD_TERMINAL_ERROR: u16 = 8;
pub const STATION_RECORD_TRAILING_INFO: u16 = 9;

pub const STATION_TYPE_TINYINT: u8 = 1;
pub const STATION_TYPE_SMALLINT: u8 = 2;
pub const STATION_TYPE_INT: u8 = 3;
pub const STATION_TYPE_BIGINT: u8 = 4;
pub const STATION_TYPE_NVARCHAR: u8 = 5;
pub const STATION_TYPE_NVARCHAR_MAX: u8 = 6;
pub const STATION_TYPE_VARCHAR_MAX: u8 = 7;
pub const STATION_TYPE_VARBINARY_MAX: u8 = 8;

pub const STATION_VALUE_TINYINT: u8 = 1;
pub const STATION_VALUE_SMALLINT: u8 = 2;
pub const STATION_VALUE_INT: u8 = 3;
pub const STATION_VALUE_BIGINT: u8 = 4;
pub const STATION_VALUE_NVARCHAR: u8 = 5;
pub const STATION_VALUE_NVARCHAR_MAX: u8 = 6;
pub const STATION_VALUE_MAX_NULL: u8 = 7;
pub const STATION_VALUE_VARCHAR_MAX: u8 = 8;
pub const STATION_VALUE_VARBINARY_MAX: u8 = 9;
pub const STATION_VALUE_NULL: u8 = 10;

pub const STATION_LEAST_PACKET_SIZE: usize = 512;
pub const STATION_MOST_PACKET_SIZE: usize = 32767;
pub const STATION_MOST_PAYLOAD: usize = 65527;

pub const STATION_FIT_SLOTS: usize = 4;
pub const STATION_FIT_KIND: usize = 0;
pub const STATION_FIT_SET: usize = 1;
pub const STATION_FIT_ROW: usize = 2;
pub const STATION_FIT_COLUMN: usize = 3;

pub const STATION_MISFIT_CLASSIFICATION: u64 = 1;
pub const STATION_MISFIT_COLUMN: u64 = 2;
pub const STATION_MISFIT_CELL: u64 = 3;

// ---- The reply reader

pub const STATION_POSITION_SLOTS: usize = 134;

pub const STATION_STEP_SLOTS: usize = 11;
pub const STATION_STEP_KIND: usize = 0;

pub const STATION_TOKEN_COLMETADATA: u64 = 0x81;
pub const STATION_COLMETADATA_COUNT: usize = 1;

pub const STATION_TOKEN_COLUMN: u64 = 0x01;
pub const STATION_COLUMN_USER_TYPE: usize = 1;
pub const STATION_COLUMN_FLAGS: usize = 2;
pub const STATION_COLUMN_CODE: usize = 3;
pub const STATION_COLUMN_LENGTH: usize = 4;
pub const STATION_COLUMN_COLLATION_START: usize = 5;
pub const STATION_COLUMN_COLLATION_LENGTH: usize = 6;
pub const STATION_COLUMN_NAME_START: usize = 7;
pub const STATION_COLUMN_NAME_LENGTH: usize = 8;

pub const STATION_TOKEN_ROW: u64 = 0xD1;

pub const STATION_TOKEN_CELL: u64 = 0x02;
pub const STATION_CELL_CASE: usize = 1;
pub const STATION_CELL_NUMBER: usize = 2;
pub const STATION_CELL_START: usize = 2;
pub const STATION_CELL_LENGTH: usize = 3;

pub const STATION_CASE_NULL: u64 = 0;
pub const STATION_CASE_NUMBER: u64 = 1;
pub const STATION_CASE_PART: u64 = 2;
pub const STATION_CASE_MAX: u64 = 3;

pub const STATION_TOKEN_DONE: u64 = 0xFD;
pub const STATION_DONE_STATUS: usize = 1;
pub const STATION_DONE_COMMAND: usize = 2;
pub const STATION_DONE_COUNT: usize = 3;

pub const STATION_DONE_MORE: u64 = 0x0001;
pub const STATION_DONE_ERROR: u64 = 0x0002;
pub const STATION_DONE_COUNT_VALID: u64 = 0x0010;

pub const STATION_TOKEN_ERROR: u64 = 0xAA;
pub const STATION_TOKEN_INFO: u64 = 0xAB;
pub const STATION_MESSAGE_NUMBER: usize = 1;
pub const STATION_MESSAGE_STATE: usize = 2;
pub const STATION_MESSAGE_CLASS: usize = 3;
pub const STATION_MESSAGE_LINE: usize = 4;
pub const STATION_MESSAGE_TEXT_START: usize = 5;
pub const STATION_MESSAGE_TEXT_LENGTH: usize = 6;
pub const STATION_MESSAGE_SERVER_START: usize = 7;
pub const STATION_MESSAGE_SERVER_LENGTH: usize = 8;
pub const STATION_MESSAGE_PROCEDURE_START: usize = 9;
pub const STATION_MESSAGE_PROCEDURE_LENGTH: usize = 10;

// ---- Event labels

pub const STATION_MOST_LABEL_TEXT: usize = 131070;
pub const STATION_MOST_LABEL_VALUE: usize = 65551;

pub const STATION_NULL_LABEL: i64 = 4294967296;

// ---- Other replies

pub const STATION_RECORD_FEATURE: u16 = 0x0013;

pub const STATION_RECORD_PLAIN_ROUTE: u16 = 0x0011;
pub const STATION_RECORD_DATABASE_ROUTE: u16 = 0x0012;

pub const STATION_NO_ACK: u16 = 256;

// ---- The calls

unsafe extern "C" {
    pub fn station_parse_header(
        bytes: *const u8,
        bytes_len: usize,
        out: *mut u64,
        out_len: usize,
    ) -> i64;
    pub fn station_write_header(
        packet_type: u8,
        status: u8,
        length: u16,
        spid: u16,
        number: u8,
        window: u8,
        buf: *mut u8,
        buf_len: usize,
    ) -> i64;
    pub fn station_is_whitespace(unit: u16) -> i64;
    pub fn station_text(text: *const u8, text_len: usize, out: *mut u64, out_len: usize) -> i64;
    pub fn station_parse_sql_batch(
        body: *const u8,
        body_len: usize,
        out: *mut u64,
        out_len: usize,
    ) -> i64;
    pub fn station_parse_transaction_manager_request(body: *const u8, body_len: usize) -> i64;
    pub fn station_parse_transaction_descriptor_header(
        body: *const u8,
        body_len: usize,
        out: *mut u64,
        out_len: usize,
    ) -> i64;
    pub fn station_parse_fedauth_token(
        payload: *const u8,
        payload_len: usize,
        out: *mut u64,
        out_len: usize,
    ) -> i64;
    pub fn station_parse_rpc_request(
        body: *const u8,
        body_len: usize,
        number: u64,
        out: *mut u64,
        out_len: usize,
    ) -> i64;
    pub fn station_capture_marks(
        capture: *const u8,
        capture_len: usize,
        out: *mut u64,
        out_len: usize,
    ) -> i64;
    pub fn station_parse_login7(
        body: *const u8,
        body_len: usize,
        ids: *mut u8,
        ids_len: usize,
        out: *mut u64,
        out_len: usize,
    ) -> i64;
    pub fn station_database(
        body: *const u8,
        body_len: usize,
        fallback: *const u8,
        fallback_len: usize,
        out: *mut u64,
        out_len: usize,
    ) -> i64;
    pub fn station_build_query_results(
        script: *const u8,
        script_len: usize,
        buf: *mut u8,
        buf_len: usize,
    ) -> i64;
    pub fn station_build_query_result(
        script: *const u8,
        script_len: usize,
        buf: *mut u8,
        buf_len: usize,
    ) -> i64;
    pub fn station_build_query_result_with_trailing_info(
        script: *const u8,
        script_len: usize,
        buf: *mut u8,
        buf_len: usize,
    ) -> i64;
    pub fn station_build_query_result_with_extras(
        script: *const u8,
        script_len: usize,
        buf: *mut u8,
        buf_len: usize,
    ) -> i64;
    pub fn station_build_query_results_in_packets(
        script: *const u8,
        script_len: usize,
        size: usize,
        buf: *mut u8,
        buf_len: usize,
    ) -> i64;
    pub fn station_cut_payload(
        payload: *const u8,
        payload_len: usize,
        size: usize,
        buf: *mut u8,
        buf_len: usize,
    ) -> i64;
    pub fn station_room(script: *const u8, script_len: usize) -> i64;
    pub fn station_room_in_packets(script: *const u8, script_len: usize, size: usize) -> i64;
    pub fn station_fit(script: *const u8, script_len: usize, out: *mut u64, out_len: usize) -> i64;
    pub fn station_fresh(position: *mut u64, position_len: usize) -> i64;
    pub fn station_step(
        packets: *const u8,
        packets_len: usize,
        position: *mut u64,
        position_len: usize,
        out: *mut u64,
        out_len: usize,
    ) -> i64;
    pub fn station_payload(
        packets: *const u8,
        packets_len: usize,
        buf: *mut u8,
        buf_len: usize,
    ) -> i64;
    pub fn station_read_label(
        value: *const u8,
        value_len: usize,
        buf: *mut u8,
        buf_len: usize,
    ) -> i64;
    pub fn station_write_label(
        text: *const u8,
        text_len: usize,
        buf: *mut u8,
        buf_len: usize,
    ) -> i64;
    pub fn station_build_prelogin_response(buf: *mut u8, buf_len: usize) -> i64;
    pub fn station_build_prelogin_response_with_encryption(
        supports_encryption: bool,
        buf: *mut u8,
        buf_len: usize,
    ) -> i64;
    pub fn station_build_prelogin_response_with_fedauth(
        supports_encryption: bool,
        supports_fedauth: bool,
        buf: *mut u8,
        buf_len: usize,
    ) -> i64;
    pub fn station_build_prelogin_response_with_options(
        supports_encryption: bool,
        supports_fedauth: bool,
        buf: *mut u8,
        buf_len: usize,
    ) -> i64;
    pub fn station_build_feature_ext_ack_fedauth(buf: *mut u8, buf_len: usize) -> i64;
    pub fn station_build_feature_ext_ack_data_classification(
        version: u8,
        buf: *mut u8,
        buf_len: usize,
    ) -> i64;
    pub fn station_build_feature_ext_ack(
        features: *const u8,
        features_len: usize,
        buf: *mut u8,
        buf_len: usize,
    ) -> i64;
    pub fn station_build_feature_ext_ack_enhanced_routing(
        is_enabled: u8,
        buf: *mut u8,
        buf_len: usize,
    ) -> i64;
    pub fn station_build_fedauth_challenge_response(
        sts_url: *const u8,
        sts_url_len: usize,
        spn: *const u8,
        spn_len: usize,
        buf: *mut u8,
        buf_len: usize,
    ) -> i64;
    pub fn station_build_fedauth_info_token(
        sts_url: *const u8,
        sts_url_len: usize,
        spn: *const u8,
        spn_len: usize,
        buf: *mut u8,
        buf_len: usize,
    ) -> i64;
    pub fn station_build_login_ack(buf: *mut u8, buf_len: usize) -> i64;
    pub fn station_build_done_token_with_status(
        status: u16,
        row_count: u64,
        buf: *mut u8,
        buf_len: usize,
    ) -> i64;
    pub fn station_build_done_token(row_count: u64, buf: *mut u8, buf_len: usize) -> i64;
    pub fn station_build_attention_ack_packet(buf: *mut u8, buf_len: usize) -> i64;
    pub fn station_build_transaction_manager_response(
        request_type: u16,
        buf: *mut u8,
        buf_len: usize,
    ) -> i64;
    pub fn station_build_info_token(
        number: u32,
        state: u8,
        severity: u8,
        message: *const u8,
        message_len: usize,
        server_name: *const u8,
        server_name_len: usize,
        proc_name: *const u8,
        proc_name_len: usize,
        line_number: u32,
        buf: *mut u8,
        buf_len: usize,
    ) -> i64;
    pub fn station_build_leading_error_tokens(
        number: u32,
        severity: u8,
        message: *const u8,
        message_len: usize,
        buf: *mut u8,
        buf_len: usize,
    ) -> i64;
    pub fn station_build_terminal_error_tokens(
        number: u32,
        severity: u8,
        message: *const u8,
        message_len: usize,
        buf: *mut u8,
        buf_len: usize,
    ) -> i64;
    pub fn station_build_error_response(
        message: *const u8,
        message_len: usize,
        buf: *mut u8,
        buf_len: usize,
    ) -> i64;
    pub fn station_build_routing_envchange_token(
        redirect_host: *const u8,
        redirect_host_len: usize,
        redirect_port: u16,
        buf: *mut u8,
        buf_len: usize,
    ) -> i64;
    pub fn station_build_enhanced_routing_envchange_token(
        redirect_host: *const u8,
        redirect_host_len: usize,
        redirect_port: u16,
        database: *const u8,
        database_len: usize,
        buf: *mut u8,
        buf_len: usize,
    ) -> i64;
    pub fn station_build_routing_response(
        redirect_host: *const u8,
        redirect_host_len: usize,
        redirect_port: u16,
        buf: *mut u8,
        buf_len: usize,
    ) -> i64;
    pub fn station_build_routing_login_response(
        redirect_host: *const u8,
        redirect_host_len: usize,
        redirect_port: u16,
        routes: *const u8,
        routes_len: usize,
        login_ack: bool,
        ack: u16,
        ack_before_routing: bool,
        buf: *mut u8,
        buf_len: usize,
    ) -> i64;
}
