//! Logins, and the database to open.

use super::Size;
use crate::answers::Part;
use crate::answers::login::{Login, SLOTS, login as rust_login};
use crate::compare::{Check, Expected};
use crate::hex::hex;
use crate::inputs::login::{Feature, login, random_login, scattered_login, token_data};
use crate::random::Random;
use crate::refusal::SHORT_BUFFER;
use crate::station::{station_database, station_parse_login7};
use crate::utf16;

struct Logins {
    login: Check,
    database: Check,
}

pub fn compare(size: Size) -> Vec<Check> {
    let mut logins = Logins::new();
    let mut random = size.random("login");
    logins.every_length(&mut random, size.count(100, 2_000));
    logins.cut_everywhere();
    logins.table_borders();
    logins.three_features();
    for _ in 0..size.count(50_000, 1_000_000) {
        logins.compare(&random_login(&mut random));
        let length = random.within(50, 160);
        logins.compare(&scattered_login(&mut random, length));
    }
    vec![logins.login, logins.database]
}

/// One login, for tests/fuzz.
#[allow(dead_code)]
pub fn compare_one(body: &[u8]) -> Vec<Check> {
    let mut logins = Logins::new();
    logins.compare(body);
    vec![logins.login, logins.database]
}

impl Logins {
    fn new() -> Self {
        Self { login: Check::new("station_parse_login7"), database: Check::new("station_database") }
    }

    fn compare(&mut self, body: &[u8]) {
        let login = rust_login(body);
        self.login(body, &login);
        self.database(body, login.database);
    }

    /// Ids and slots: exactly enough, more, and too few of either or both.
    fn login(&mut self, body: &[u8], login: &Login) {
        let ids = login.features.len();
        let slots = login.slots();
        let whole = Expected { code: ids as i64, bytes: &login.features, slots: &slots };
        let short = Expected::refused(SHORT_BUFFER);
        let fewer = body.len() % SLOTS;
        let mut lend = |sizes, expected| {
            let call = |ids: &mut [u8], out: &mut [u64]| station_parse_login7(body, ids, out);
            self.login.call(|| hex(body), sizes, expected, call);
        };
        lend((ids, SLOTS), whole);
        lend((ids + 3, SLOTS + 2), whole);
        lend((ids, fewer), short);
        if ids > 0 {
            lend((ids - 1, SLOTS), short);
            lend((0, SLOTS), short);
            lend((ids - 1, fewer), short);
        }
    }

    fn database(&mut self, body: &[u8], own: Option<Part>) {
        for fallback in [&b""[..], b"m\0", &[0x00, 0xD8, 0x41]] {
            let answer = Ok(match own {
                Some(part) => (0, part.slots().to_vec()),
                None => (1, vec![0, fallback.len() as u64]),
            });
            let input = || format!("{} fallback {}", hex(body), hex(fallback));
            self.database.slots(input, &answer, 2, |out| station_database(body, fallback, out));
        }
    }

    /// Every length from 0 to 160, with offsets into the body and near its end.
    fn every_length(&mut self, random: &mut Random, times: usize) {
        for length in 0..=160 {
            for _ in 0..times {
                self.compare(&scattered_login(random, length));
            }
        }
    }

    /// A full login, and without its texts, cut at every byte.
    fn cut_everywhere(&mut self) {
        let features = [
            Feature::whole(0x01, &[7, 7]),
            Feature::whole(0x02, &token_data(4, b"t\0k\0")),
            Feature::whole(0x09, &[2]),
            Feature::whole(0x10, b"u\0a\0"),
        ];
        for body in [
            login(b"s\0v\0", b"d\0b\0", &features, &[0xFF]),
            login(&[], &[], &features, &[]),
            login(b"s\0v\0", b"d\0b\0", &[], &[]),
        ] {
            for length in 0..=body.len() {
                self.compare(&body[..length]);
            }
        }
    }

    /// Table entries, the pointer and the place of the features at every border of the body, and
    /// all option flags.
    fn table_borders(&mut self) {
        let features = [Feature::whole(0x02, &token_data(2, b"t\0")), Feature::whole(0x09, &[1])];
        let good = login(b"s\0v\0", &utf16::bytes(&[0xD83D, 0xDE00]), &features, &[0xFF]);
        let end = good.len() as u16;
        let starts =
            [0, 1, 52, 94, end - 5, end - 4, end - 3, end - 1, end, end + 1, 0x7FFF, 0xFFFF];
        for entry in [52, 56, 68] {
            for start in starts {
                for count in [0, 1, 2, 3, 0x7FFF, 0x8000, 0xFFFF] {
                    let mut body = good.clone();
                    body[entry..entry + 2].copy_from_slice(&u16::to_le_bytes(start));
                    body[entry + 2..entry + 4].copy_from_slice(&u16::to_le_bytes(count));
                    self.compare(&body);
                }
            }
        }
        let pointer = usize::from(u16::from_le_bytes([good[56], good[57]]));
        for place in
            (0..u32::from(end) + 3).chain([0x7FFF_FFFF, 0x8000_0000, 0xFFFF_FFFC, 0xFFFF_FFFF])
        {
            let mut body = good.clone();
            body[pointer..pointer + 4].copy_from_slice(&place.to_le_bytes());
            self.compare(&body);
        }
        for flags in 0..=0xFF {
            let mut body = good.clone();
            body[27] = flags;
            self.compare(&body);
        }
    }

    /// Three features in every order, each with lengths around its borders and past the end;
    /// ended by FF, by the body, and by a cut.
    fn three_features(&mut self) {
        let features = features();
        for one in &features {
            for two in &features {
                for three in &features {
                    let list = [one.clone(), two.clone(), three.clone()];
                    let body = login(b"s\0", b"d\0", &list, &[0xFF]);
                    let length = body.len();
                    let cut = length - 1 - length % 3;
                    for ended in [length, length - 1, cut] {
                        self.login(&body[..ended], &rust_login(&body[..ended]));
                    }
                }
            }
        }
    }
}

/// Each feature at its borders.
fn features() -> Vec<Feature> {
    let fedauth = [
        vec![],
        vec![0x00],
        vec![0x02],
        vec![0x04],
        vec![0x04, 0x03],
        vec![0x05, 0x01, 0x09],
        vec![0x06, 0x02],
        vec![0x02, 1, 0, 0],
        token_data(0, &[]),
        token_data(0, &[0xAA]),
        token_data(1, &[0xBB]),
        token_data(2, &[0xCC]),
        token_data(2, &[0xDD, 0xEE, 0x11]),
        token_data(0xFFFF_FFFF, &[0x22]),
    ];
    let mut features: Vec<Feature> =
        fedauth.iter().map(|data| Feature::whole(0x02, data)).collect();
    for told in [1, 2, 0xFFFF_FFFF] {
        for id in [0x01, 0x02, 0x09, 0x10] {
            features.push(Feature::told(id, told, &[]));
        }
    }
    for id in [0x01, 0x09, 0x0F, 0x10] {
        features.push(Feature::whole(id, &[]));
        features.push(Feature::whole(id, &[0x05]));
    }
    features.extend([
        Feature::whole(0x09, &[0x07, 0x08]),
        Feature::whole(0x10, b"u\0"),
        Feature::whole(0x10, &[0x3D, 0xD8]),
        Feature::whole(0x10, &[0x3D, 0xD8, 0x00, 0xDE]),
        Feature::whole(0x10, b"v\0x"),
        Feature::whole(0x00, &[0xFF]),
    ]);
    features
}
