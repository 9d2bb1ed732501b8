//! The packet header as `PacketHeader::parse` reads it and as `PacketHeader::write` writes it.

use crate::protocol::{PacketHeader, ProtocolError};
use crate::refusal::{Answer, SHORT_HEADER, UNKNOWN_PACKET_TYPE};

pub struct Header {
    /// Type, status, length, spid, number, window.
    pub fields: [u64; 6],
    pub end_of_message: bool,
    pub ignore: bool,
}

/// The fields of a header that is to be written.
#[derive(Clone, Copy)]
pub struct Fields {
    pub packet_type: u8,
    pub status: u8,
    pub length: u16,
    pub spid: u16,
    pub number: u8,
    pub window: u8,
}

impl Fields {
    /// As the lists of calls have them.
    pub fn words(self) -> [String; 6] {
        let Self { packet_type, status, length, spid, number, window } = self;
        [packet_type.into(), status.into(), length, spid, number.into(), window.into()]
            .map(|field: u16| field.to_string())
    }
}

pub fn header(bytes: &[u8]) -> Answer<Header> {
    let header = parsed(bytes)?;
    Ok(Header {
        fields: [
            header.packet_type as u64,
            status_byte(&header),
            header.length.into(),
            header.spid.into(),
            header.packet_id.into(),
            header.window.into(),
        ],
        end_of_message: header.status.is_end_of_message(),
        ignore: header.status.is_ignore(),
    })
}

fn parsed(mut bytes: &[u8]) -> Answer<PacketHeader> {
    PacketHeader::parse(&mut bytes).map_err(|error| match error {
        ProtocolError::InvalidPacketType(_) => UNKNOWN_PACKET_TYPE,
        ProtocolError::Protocol(text) if text == "Not enough data for header" => SHORT_HEADER,
        other => panic!("a header error without a number: {other}"),
    })
}

/// The bytes of a header with these fields. A status of any value comes only from a header that is
/// parsed; the other fields are set.
pub fn written(fields: Fields) -> Answer<Vec<u8>> {
    let header = PacketHeader {
        length: fields.length,
        spid: fields.spid,
        packet_id: fields.number,
        window: fields.window,
        ..parsed(&[fields.packet_type, fields.status, 0, 0, 0, 0, 0, 0])?
    };
    let mut bytes = Vec::new();
    header.write(&mut bytes);
    Ok(bytes)
}

/// The status is private in the Rust; it comes out where the header is written.
fn status_byte(header: &PacketHeader) -> u64 {
    let mut written = Vec::new();
    header.write(&mut written);
    written[1].into()
}
