//! Replies in packets of a size: those of scripts, the room for them, and any payload cut.

use super::Size;
use crate::answers::packets::{HEADER, SIZES, joined, payload_in_packets, reply_in_packets};
use crate::answers::reply::{LONGEST_RESULT, reply};
use crate::compare::Check;
use crate::hex::hex;
use crate::inputs::script::{WIDE, damaged, of_shape, random_script};
use crate::random::Random;
use crate::script::records::{set, written};
use crate::station::*;

const CHOSEN: [usize; 7] = [512, 513, 600, 4_096, 8_191, 32_766, 32_767];
/// Sizes that cannot be agreed: 0, around the header's length, around the range, and huge ones.
const OUTSIDE: [usize; 9] = [0, 8, 9, 511, 32_768, 65_535, 65_536, 1 << 32, usize::MAX];
/// The bytes of a bare set beside its classification: COLMETADATA and DONE.
const BARE: usize = 16;
const LONGEST_PAYLOAD: usize = LONGEST_RESULT - HEADER;

struct Packets {
    replies: Check,
    room: Check,
    payloads: Check,
}

pub fn compare(size: Size) -> Vec<Check> {
    let mut packets = Packets::new();
    let mut random = size.random("packets");
    packets.outside(&mut random);
    packets.lengths(&mut random, size.count(6, 140));
    packets.random_scripts(&mut random, size.count(2_000, 40_000));
    if size.large {
        packets.every_size(&mut random);
    }
    packets.checks()
}

/// One script at a size, for tests/fuzz.
#[allow(dead_code)]
pub fn compare_one(script: &[u8], size: usize) -> Vec<Check> {
    let mut packets = Packets::new();
    packets.script(script, size);
    packets.checks()
}

impl Packets {
    fn new() -> Self {
        Self {
            replies: Check::new("station_build_query_results_in_packets"),
            room: Check::new("station_room_in_packets"),
            payloads: Check::new("station_cut_payload"),
        }
    }

    fn checks(self) -> Vec<Check> {
        vec![self.replies, self.room, self.payloads]
    }

    /// A script, the room for its reply, and the reply's payload, at a size.
    fn script(&mut self, script: &[u8], size: usize) {
        let answer = reply_in_packets(script, size);
        if let (Ok(packets), Ok(packet)) = (&answer, reply(script)) {
            assert_eq!(joined(packets), packet[HEADER..]);
            self.payload(&packet[HEADER..], size);
        }
        let sum = answer.as_ref().map_err(|number| *number).map(|packets| sum(packets));
        let input = || format!("{} {size}", hex(script));
        self.room.number(input, sum, || station_room_in_packets(script, size));
        self.replies.buffer(input, &answer, |buffer| {
            station_build_query_results_in_packets(script, size, buffer)
        });
    }

    fn payload(&mut self, payload: &[u8], size: usize) {
        let answer = payload_in_packets(payload, size);
        self.payloads.buffer(
            || format!("{} {size}", hex(payload)),
            &answer,
            |buffer| station_cut_payload(payload, size, buffer),
        );
    }

    /// 32 before all others: of good scripts and payloads, of refused ones and of long ones.
    fn outside(&mut self, random: &mut Random) {
        for size in OUTSIDE {
            self.script(&written(&[set(&[])]), size);
            self.script(&[1], size);
            self.script(&written(&[set(&vec![0; LONGEST_RESULT])]), size);
            self.payload(&[], size);
            self.payload(&random.bytes(600), size);
            self.payload(&vec![0; LONGEST_PAYLOAD + 1], size);
        }
    }

    /// Payloads of k times what a packet holds, one byte less and one more; the longest, and one more.
    fn lengths(&mut self, random: &mut Random, most: usize) {
        for size in CHOSEN {
            let room = size - HEADER;
            let whole = (1..=most).map(|count| count * room).filter(|n| *n < LONGEST_PAYLOAD);
            let around = whole.flat_map(|n| [n - 1, n, n + 1]);
            for length in around.chain([LONGEST_PAYLOAD - 1, LONGEST_PAYLOAD, LONGEST_PAYLOAD + 1])
            {
                self.script(&written(&[set(&random.bytes(length - BARE))]), size);
                self.payload(&random.bytes(length), size);
            }
            for length in 0..=2 {
                self.payload(&random.bytes(length), size);
            }
        }
    }

    fn random_scripts(&mut self, random: &mut Random, count: usize) {
        for _ in 0..count {
            let records =
                if random.one_in(2) { of_shape(random, WIDE) } else { random_script(random) };
            let script =
                if random.one_in(8) { damaged(random, &records) } else { written(&records) };
            let size =
                if random.one_in(2) { random.pick(&CHOSEN) } else { random.within(512, 700) };
            self.script(&script, size);
        }
    }

    /// Every size that can be agreed, for three scripts: a short one, one of some packets, the longest.
    fn every_size(&mut self, random: &mut Random) {
        for length in [BARE, 9_000, LONGEST_PAYLOAD] {
            let script = written(&[set(&random.bytes(length - BARE))]);
            for size in SIZES {
                self.script(&script, size);
            }
        }
    }
}

/// The sum of the packets' lengths, each by its header.
fn sum(mut packets: &[u8]) -> i64 {
    let mut sum = 0;
    while !packets.is_empty() {
        let length = u16::from_be_bytes([packets[2], packets[3]]);
        sum += i64::from(length);
        packets = &packets[usize::from(length)..];
    }
    sum
}
