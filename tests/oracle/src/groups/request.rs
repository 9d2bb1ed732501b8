//! Requests: SQL batches, transaction requests, descriptor headers, token messages.

use super::Size;
use crate::answers::request::{batch, descriptor, fedauth, transaction};
use crate::compare::{Check, Expected};
use crate::hex::hex;
use crate::inputs::request::*;
use crate::random::Random;
use crate::station::*;
use crate::utf16;

struct Requests {
    batch: Check,
    transaction: Check,
    descriptor: Check,
    fedauth: Check,
}

pub fn compare(size: Size) -> Vec<Check> {
    let mut requests = Requests::new();
    let mut random = size.random("request");
    requests.every_short_body();
    requests.every_small_body();
    requests.every_headers_length(&mut random);
    requests.headers_lengths_at_borders();
    requests.every_unit_at_both_ends();
    requests.long_batches();
    requests.every_token_message(&mut random);
    requests.headers_of_every_length(size);
    requests.random_requests(&mut random, size);
    requests.checks()
}

/// One body, read as each kind of request, for tests/fuzz.
#[allow(dead_code)]
pub fn compare_one(body: &[u8]) -> Vec<Check> {
    let mut requests = Requests::new();
    requests.all(body);
    requests.checks()
}

impl Requests {
    fn new() -> Self {
        Self {
            batch: Check::new("station_parse_sql_batch"),
            transaction: Check::new("station_parse_transaction_manager_request"),
            descriptor: Check::new("station_parse_transaction_descriptor_header"),
            fedauth: Check::new("station_parse_fedauth_token"),
        }
    }

    fn checks(self) -> Vec<Check> {
        vec![self.batch, self.transaction, self.descriptor, self.fedauth]
    }

    /// The body, read as each kind of request.
    fn all(&mut self, body: &[u8]) {
        self.batch(body);
        self.transaction(body);
        self.descriptor(body);
        self.fedauth(body);
    }

    fn batch(&mut self, body: &[u8]) {
        let answer = batch(body).map(|part| (0, part.slots().to_vec()));
        self.batch.slots(|| hex(body), &answer, 2, |out| station_parse_sql_batch(body, out));
    }

    fn transaction(&mut self, body: &[u8]) {
        let answer = transaction(body).map(i64::from);
        let call = || station_parse_transaction_manager_request(body);
        self.transaction.number(|| hex(body), answer, call);
    }

    fn descriptor(&mut self, body: &[u8]) {
        let answer = Ok(match descriptor(body) {
            Some((descriptor, count)) => (1, vec![descriptor, count.into()]),
            None => (0, Vec::new()),
        });
        let call = |out: &mut [u64]| station_parse_transaction_descriptor_header(body, out);
        self.descriptor.slots(|| hex(body), &answer, 2, call);
    }

    fn fedauth(&mut self, payload: &[u8]) {
        let answer = fedauth(payload).map(|part| (0, part.slots().to_vec()));
        let call = |out: &mut [u64]| station_parse_fedauth_token(payload, out);
        self.fedauth.slots(|| hex(payload), &answer, 2, call);
    }

    /// All bodies of up to two bytes.
    fn every_short_body(&mut self) {
        self.all(&[]);
        for first in 0..=0xFF {
            self.all(&[first]);
            for second in 0..=0xFF {
                self.all(&[first, second]);
            }
        }
    }

    /// All bodies of four and five bytes that are 00 to 05 or FF.
    fn every_small_body(&mut self) {
        for body in [4, 5].into_iter().flat_map(small_bodies) {
            self.all(&body);
        }
    }

    /// All headers lengths from 0 to 40 before bodies of every length to 48: of blanks, letters,
    /// surrogates, zeros, a descriptor header and of anything.
    fn every_headers_length(&mut self, random: &mut Random) {
        let header = [&[18, 0, 0, 0, 2, 0][..], &[0xAB; 12]].concat();
        for headers in 0..=40u32 {
            for length in 0..=48 {
                let anything = random.bytes(48);
                for filler in [&[0x20, 0x00][..], b"A\0", &[0x3D, 0xD8], &[0], &header, &anything] {
                    let mut body = headers.to_le_bytes().to_vec();
                    body.extend(filler.iter().cycle().take(48));
                    body.truncate(length);
                    self.all(&body);
                }
            }
        }
    }

    /// Headers lengths around each power of two, before bodies of 4 to 40 bytes.
    fn headers_lengths_at_borders(&mut self) {
        for power in 0..=32 {
            for headers in [-2, -1, 0, 1, 2].map(|near| ((1i64 << power) + near) as u32) {
                for length in [4, 5, 6, 7, 8, 40] {
                    let mut body = headers.to_le_bytes().to_vec();
                    body.resize(length, 0x20);
                    self.all(&body);
                }
            }
        }
    }

    fn every_unit_at_both_ends(&mut self) {
        const A: u16 = 0x41;
        const BLANK: u16 = 0x20;
        for unit in 0..=u16::MAX {
            for text in [
                &[unit][..],
                &[unit, A],
                &[A, unit],
                &[unit, A, unit],
                &[BLANK, unit, BLANK],
                &[unit, unit, A, unit, unit],
                &[0xD83D, unit],
                &[unit, 0xDE00],
            ] {
                let body = [&[4, 0, 0, 0][..], &utf16::bytes(text)].concat();
                self.batch(&body);
            }
        }
    }

    /// 30,000 blanks alone, before, after and around a letter; an odd byte after them.
    fn long_batches(&mut self) {
        let blanks = [0x20, 0x00].repeat(30_000);
        for around in [&[][..], b"A\0", &[0x3D, 0xD8], &[0x3D, 0xD8, 0x00, 0xDE]] {
            for text in [
                [&blanks, around].concat(),
                [around, &blanks].concat(),
                [&blanks, around, &blanks].concat(),
                [&blanks, around, &[0x00][..]].concat(),
            ] {
                self.batch(&[&[4, 0, 0, 0][..], &text].concat());
            }
        }
    }

    /// Payloads of every length to 48 with lengths around the right ones.
    fn every_token_message(&mut self, random: &mut Random) {
        for length in 0..=48usize {
            let right = length as i64 - 4;
            for outer in [-8, -4, -1, 0, 1, 4, 8, 1 << 32].map(|near| right + near) {
                for inner in [-8, -5, -4, -3, -1, 0, 4, (1 << 32) - 4].map(|near| outer + near) {
                    let mut payload = (outer as u32).to_le_bytes().to_vec();
                    payload.extend((inner as u32).to_le_bytes());
                    payload.extend(random.bytes(48));
                    payload.truncate(length);
                    self.fedauth(&payload);
                }
            }
        }
    }

    /// Blocks of one to four headers of every length 0 to 24 and type 0 to 3. Of four, the quick
    /// size takes the lengths at borders only.
    fn headers_of_every_length(&mut self, size: Size) {
        let every: Vec<u32> = (0..=24).collect();
        let borders = [0, 5, 6, 17, 18, 19, 24];
        self.blocks(&mut vec![], 3, &every);
        self.blocks(&mut vec![], 4, if size.large { &every } else { &borders });
        for one in 0..=24 {
            self.every_total(&[(one, 2)]);
            for two in 0..=24 {
                self.every_total(&[(one, 1), (two, 2)]);
            }
        }
    }

    /// All blocks that go on from these headers, but no fourth one where the walk ends before it.
    fn blocks(&mut self, before: &mut Vec<(u32, u16)>, most: usize, lengths: &[u32]) {
        if !before.is_empty() {
            self.block(&block(before));
        }
        let ended =
            before.iter().any(|(length, kind)| *length < 6 || (*length >= 18 && *kind == 2));
        if before.len() == most || (ended && before.len() == 3) {
            return;
        }
        for length in lengths {
            for kind in 0..4 {
                before.push((*length, kind));
                self.blocks(before, most, lengths);
                before.pop();
            }
        }
    }

    /// One call with exactly two slots: there are too many blocks for more.
    fn block(&mut self, body: &[u8]) {
        let slots = descriptor(body).map(|(descriptor, count)| [descriptor, count.into()]);
        let expected = Expected {
            code: slots.is_some().into(),
            bytes: &[],
            slots: slots.as_ref().map_or(&[], |slots| &slots[..]),
        };
        let call =
            |_: &mut [u8], out: &mut [u64]| station_parse_transaction_descriptor_header(body, out);
        self.descriptor.call(|| hex(body), (0, 2), expected, call);
    }

    /// The block with every total from 0 to past its end.
    fn every_total(&mut self, headers: &[(u32, u16)]) {
        let exact = block(headers);
        for total in 0..exact.len() as u32 + 4 {
            let mut body = exact.clone();
            body[..4].copy_from_slice(&total.to_le_bytes());
            self.descriptor(&body);
            body.extend([2, 0, 0]);
            self.descriptor(&body);
        }
    }

    fn random_requests(&mut self, random: &mut Random, size: Size) {
        for _ in 0..size.count(50_000, 1_000_000) {
            self.batch(&random_batch(random));
            self.transaction(&random_transaction(random));
            self.descriptor(&random_descriptor(random));
            self.fedauth(&random_token_message(random));
            let count = random.within(0, 64);
            let anything = random.bytes(count);
            self.all(&anything);
        }
    }
}

/// The total, and headers that tell these lengths and types, of 6 bytes at least.
fn block(headers: &[(u32, u16)]) -> Vec<u8> {
    let mut body = vec![0; 4];
    for (number, (length, kind)) in (1u8..).zip(headers) {
        body.extend(length.to_le_bytes());
        body.extend(kind.to_le_bytes());
        let data = (*length as usize).saturating_sub(6);
        body.extend((0u8..).map(|place| number << 5 | place).take(data));
    }
    let total = body.len() as u32;
    body[..4].copy_from_slice(&total.to_le_bytes());
    body
}
