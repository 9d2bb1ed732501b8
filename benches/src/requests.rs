//! SQL batches and logins.

use crate::cases::{Case, Outcome, SIZES, Side};
use crate::inputs::login::{Feature, login as login_body, token_data};
use crate::protocol;
use crate::region::Measure;
use crate::utf16;

/// The texts of batches, by their units.
const BATCHES: [(&str, fn(usize) -> String); 3] = [
    ("batch of blanks", |units| " ".repeat(units)),
    ("batch of letters", |units| "a".repeat(units)),
    ("batch with blank ends", |units| {
        let blanks = " ".repeat(units / 3);
        format!("{blanks}{}{blanks}", "a".repeat(units - 2 * blanks.len()))
    }),
];

pub fn batches() -> Vec<Case> {
    let mut cases =
        vec![Case::new("smallest batch", "request", |side, measure| batch("a", side, measure))];
    for (kind, text) in BATCHES {
        for (size, most) in SIZES {
            let run = move |side, measure| batch(&text((most - 4) / 2), side, measure);
            cases.push(Case::new(format!("{kind}, {size}"), "request", run));
        }
    }
    cases
}

/// A batch whose headers are their own length alone.
fn batch(text: &str, side: Side, measure: Measure) -> Option<Outcome> {
    let body = [&4u32.to_le_bytes()[..], &utf16::text_bytes(text)].concat();
    let (answer, time) = match side {
        Side::Ours => ours::batch(&body, measure)?,
        Side::Rust => {
            let (text, time) = measure.of(|| protocol::parse_sql_batch(&body));
            (utf16::text_bytes(&text.expect("the batch is good")), time)
        }
    };
    Some(Outcome { input: body.len(), answer, time })
}

/// The bytes of a login body by its most bytes: all of them together, and grown by one thing each.
const LOGINS: [(&str, fn(usize) -> Vec<u8>); 3] = [
    ("login with a long token", |most| grown(most, |more| body(64 + more, 0, 0))),
    ("login with long texts", |most| grown(most, |more| body(64, more / 4, 0))),
    ("login of many features", |most| grown(most, |more| body(64, 0, more / FEATURE))),
];
/// The bytes of a feature with one byte of data.
const FEATURE: usize = 6;

pub fn logins() -> Vec<Case> {
    let smallest = login_body(&[], &[], &[], &[]);
    let mut cases = vec![
        login_case("smallest login".into(), smallest),
        login_case("login, 0.3 KB".into(), body(64, 0, 0)),
    ];
    for (kind, body) in LOGINS {
        for (size, most) in SIZES {
            cases.push(login_case(format!("{kind}, {size}"), body(most)));
        }
    }
    cases
}

fn login_case(name: String, body: Vec<u8>) -> Case {
    Case::new(name, "login", move |side, measure| {
        let (answer, time) = match side {
            Side::Ours => ours::login(&body, measure)?,
            Side::Rust => rust_login(&body, measure),
        };
        Some(Outcome { input: body.len(), answer, time })
    })
}

/// The body with as many bytes more than the smallest one as there is room for.
fn grown(most: usize, body: impl Fn(usize) -> Vec<u8>) -> Vec<u8> {
    body(most - body(0).len())
}

/// Both texts with so many units more, a token, a user agent, two more features and `features` of
/// an id that says nothing. The smallest has about 300 bytes.
fn body(token: usize, units: usize, features: usize) -> Vec<u8> {
    let token = vec![0x5A; token];
    let mut list = vec![
        Feature::whole(0x01, &[0]),
        Feature::whole(0x02, &token_data(token.len() as u32, &token)),
        Feature::whole(0x09, &[2]),
        Feature::whole(0x10, &utf16::text_bytes("station unit 7")),
    ];
    list.extend((0..features).map(|_| Feature::whole(0x0F, &[0])));
    let text = |text: &str| utf16::text_bytes(&format!("{text}{}", "a".repeat(units)));
    login_body(&text("station-17.example.net"), &text("measurements"), &list, &[0xFF])
}

fn rust_login(body: &[u8], measure: Measure) -> (Vec<u8>, f64) {
    let ((login, session), time) = measure.of(|| protocol::parse_login7(body));
    let byte = |byte: Option<u8>| byte.map_or(256, u16::from).to_le_bytes();
    let text = |text: Option<String>| utf16::text_bytes(&text.unwrap_or_default());
    let mut answer = login.feature_ids;
    answer.extend([login.has_fedauth.into(), login.fedauth_library]);
    answer.extend(byte(login.fedauth_workflow));
    answer.extend(byte(login.data_classification_version));
    answer.push(session.into());
    answer.extend(login.access_token_bytes.unwrap_or_default());
    for part in [login.server_name, login.user_agent, login.database] {
        answer.extend(text(part));
    }
    (answer, time)
}

// Where an export is missing, what only it uses is left over.
#[cfg_attr(not(all(feature = "request", feature = "login")), allow(unused))]
mod ours {
    use super::{FEATURE, Measure};

    #[cfg(feature = "request")]
    pub fn batch(body: &[u8], measure: Measure) -> Option<(Vec<u8>, f64)> {
        let mut out = [0; 2];
        let call = || crate::station::station_parse_sql_batch(body, &mut out);
        let (code, time) = measure.of(call);
        assert_eq!(code, 0, "the batch is good");
        Some((part(body, &out).to_vec(), time))
    }

    #[cfg(not(feature = "request"))]
    pub fn batch(body: &[u8], measure: Measure) -> Option<(Vec<u8>, f64)> {
        None
    }

    #[cfg(feature = "login")]
    pub fn login(body: &[u8], measure: Measure) -> Option<(Vec<u8>, f64)> {
        let (mut ids, mut out) = (vec![0; body.len() / FEATURE], [0; 13]);
        let call = || crate::station::station_parse_login7(body, &mut ids, &mut out);
        let (count, time) = measure.of(call);
        let mut answer = ids[..count as usize].to_vec();
        answer.extend([out[0] as u8, out[1] as u8]);
        answer.extend((out[2] as u16).to_le_bytes());
        answer.extend((out[3] as u16).to_le_bytes());
        answer.push(out[4] as u8);
        out[5..].chunks(2).for_each(|slots| answer.extend(part(body, slots)));
        Some((answer, time))
    }

    #[cfg(not(feature = "login"))]
    pub fn login(body: &[u8], measure: Measure) -> Option<(Vec<u8>, f64)> {
        None
    }

    /// The part that start and length tell; empty where there is none.
    fn part<'a>(body: &'a [u8], slots: &[u64]) -> &'a [u8] {
        let (start, length) = (slots[0] as usize, slots[1] as usize);
        body.get(start..start + length).unwrap_or_default()
    }
}
