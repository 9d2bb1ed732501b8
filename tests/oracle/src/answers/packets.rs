//! A payload in packets of a size (document 02, 2026-02), cut here: the Rust writes one packet only.

use super::reply::{LONGEST_RESULT, reply};
use crate::refusal::{Answer, LONG_RESULT, PACKET_SIZE};
use std::ops::RangeInclusive;

/// The sizes that can be agreed at login.
pub const SIZES: RangeInclusive<usize> = 512..=32_767;
/// The bytes of a packet's header.
pub const HEADER: usize = 8;

/// The reply of a script: the payload of the Rust's one packet, cut.
pub fn reply_in_packets(script: &[u8], size: usize) -> Answer<Vec<u8>> {
    agreed(size)?;
    Ok(cut(&reply(script)?[HEADER..], size))
}

/// Any payload.
pub fn payload_in_packets(payload: &[u8], size: usize) -> Answer<Vec<u8>> {
    agreed(size)?;
    if payload.len() > LONGEST_RESULT - HEADER { Err(LONG_RESULT) } else { Ok(cut(payload, size)) }
}

fn agreed(size: usize) -> Answer<()> {
    if SIZES.contains(&size) { Ok(()) } else { Err(PACKET_SIZE) }
}

/// Packets one after another: type 04, status 01 on the last and 00 before it, numbers from 1.
pub fn cut(payload: &[u8], size: usize) -> Vec<u8> {
    let parts: Vec<&[u8]> = payload.chunks(size - HEADER).collect();
    let mut packets = Vec::new();
    for (number, part) in (1usize..).zip(&parts) {
        let [high, low] = ((HEADER + part.len()) as u16).to_be_bytes();
        let status = u8::from(number == parts.len());
        packets.extend([4, status, high, low, 0, 0, (number % 256) as u8, 0]);
        packets.extend_from_slice(part);
    }
    packets
}

/// The payloads of packets joined, each taken by its header's length.
pub fn joined(mut packets: &[u8]) -> Vec<u8> {
    let mut payload = Vec::new();
    while !packets.is_empty() {
        let length = usize::from(u16::from_be_bytes([packets[2], packets[3]]));
        let (packet, rest) = packets.split_at(length);
        payload.extend_from_slice(&packet[HEADER..]);
        packets = rest;
    }
    payload
}
