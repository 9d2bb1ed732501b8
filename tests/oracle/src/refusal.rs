//! The numbers of the refusals, each with its cause (document 01, 'Who causes which refusal').

/// What a call answers, or the number it refuses with.
pub type Answer<T> = Result<T, u8>;

pub const EMPTY_BATCH: u8 = 1;
pub const SHORT_BATCH: u8 = 2;
pub const HEADERS_PAST_END: u8 = 3;
pub const BATCH_NOT_UTF16: u8 = 4;
pub const SHORT_TOKEN_MESSAGE: u8 = 5;
pub const OUTER_LENGTH: u8 = 6;
pub const INNER_LENGTH: u8 = 7;
pub const SHORT_HEADER: u8 = 8;
pub const UNKNOWN_PACKET_TYPE: u8 = 9;
pub const NO_REQUEST_TYPE: u8 = 10;
pub const RECORD_CUT: u8 = 11;
/// A kind that is unknown or out of order, or a script without a set.
pub const KIND: u8 = 12;
/// A payload of a wrong shape, an odd text too.
pub const SHAPE: u8 = 13;
pub const RECORD_NOT_UTF16: u8 = 14;
pub const EMPTY_CHUNK: u8 = 15;
/// A column, server or procedure name over 255 units.
pub const LONG_NAME: u8 = 16;
/// A result over 65,535 bytes, or a label over 65,535 characters.
pub const LONG_RESULT: u8 = 17;
pub const SHORT_BUFFER: u8 = 20;
pub const ODD_ARGUMENT: u8 = 21;
pub const ARGUMENT_NOT_UTF16: u8 = 22;
/// A field of a value that is cut.
pub const VALUE_CUT: u8 = 24;
/// A value whose total is not the sum of its chunks, or bytes after a value.
pub const VALUE_WRONG: u8 = 26;
/// A packet size under 512 or over 32,767 bytes.
pub const PACKET_SIZE: u8 = 32;
/// A headers length of 0 to 3, which cannot hold its own four bytes.
pub const HEADERS_TOO_SMALL: u8 = 35;
/// A unit that no byte of Windows-1252 stands for.
pub const NO_BYTE: u8 = 36;
