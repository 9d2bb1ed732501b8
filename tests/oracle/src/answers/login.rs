//! The login as the Rust reads it.
//!
//! The Rust answers texts and bytes, the library parts of the body. The parts are looked for
//! here, and each is held against what the Rust answered.

use super::Part;
use crate::protocol::{self, FEATURE_EXT_FEDAUTH, FEATURE_EXT_TERMINATOR, FEATURE_EXT_USER_AGENT};
use crate::utf16;

/// The slots of a login: five numbers and four parts.
pub const SLOTS: usize = 13;
/// Workflow or classification version where there is none.
const NO_BYTE: u64 = 256;
/// The start of a part where there is none: no text has it.
const NO_START: u64 = u64::MAX;

pub struct Login {
    pub fedauth: bool,
    pub library: u8,
    pub workflow: Option<u8>,
    pub class_version: Option<u8>,
    pub session: bool,
    pub token: Option<Part>,
    pub server: Option<Part>,
    pub user_agent: Option<Part>,
    pub database: Option<Part>,
    pub features: Vec<u8>,
}

impl Login {
    /// The slots that the library fills for the login.
    pub fn slots(&self) -> Vec<u64> {
        let byte = |byte: Option<u8>| byte.map_or(NO_BYTE, u64::from);
        let mut slots = vec![
            self.fedauth.into(),
            self.library.into(),
            byte(self.workflow),
            byte(self.class_version),
            self.session.into(),
        ];
        for part in [self.token, self.server, self.user_agent, self.database] {
            slots.extend(part.map_or([NO_START, 0], Part::slots));
        }
        slots
    }
}

pub fn login(body: &[u8]) -> Login {
    let (rust, session) = protocol::parse_login7(body);
    let (token, user_agent) = feature_parts(body);
    let login = Login {
        fedauth: rust.has_fedauth,
        library: rust.fedauth_library,
        workflow: rust.fedauth_workflow,
        class_version: rust.data_classification_version,
        session,
        token,
        server: table_text(body, 52, 56),
        user_agent,
        database: table_text(body, 68, 72),
        features: rust.feature_ids,
    };
    assert_part(body, login.token, rust.access_token_bytes);
    assert_part(body, login.server, rust.server_name.as_deref().map(utf16::text_bytes));
    assert_part(body, login.user_agent, rust.user_agent.as_deref().map(utf16::text_bytes));
    assert_part(body, login.database, rust.database.as_deref().map(utf16::text_bytes));
    login
}

fn assert_part(body: &[u8], part: Option<Part>, rust: Option<Vec<u8>>) {
    assert_eq!(part.map(|part| part.of(body).to_vec()), rust, "the part is the Rust's text");
}

/// The text that the entry of the offset table points to, in a login of `least` bytes or more.
fn table_text(body: &[u8], entry: usize, least: usize) -> Option<Part> {
    if body.len() < least {
        return None;
    }
    text_part(body, Part { start: le16(body, entry), length: 2 * le16(body, entry + 2) })
        .filter(|part| part.length > 0)
}

/// The part, where it lies in the body and is well-formed.
fn text_part(body: &[u8], part: Part) -> Option<Part> {
    (part.start + part.length <= body.len() && utf16::text(part.of(body)).is_some()).then_some(part)
}

/// Token and user agent, found by a walk over the features.
fn feature_parts(body: &[u8]) -> (Option<Part>, Option<Part>) {
    let mut token = None;
    let mut user_agent = None;
    let mut at = features_start(body).unwrap_or(body.len());
    while at + 5 <= body.len() && body[at] != FEATURE_EXT_TERMINATOR {
        let data = Part { start: at + 5, length: le32(body, at + 1) };
        let whole = data.start + data.length <= body.len();
        if body[at] == FEATURE_EXT_FEDAUTH && whole {
            token = token_part(body, data).or(token);
        }
        if body[at] == FEATURE_EXT_USER_AGENT && whole {
            user_agent = text_part(body, data).or(user_agent);
        }
        at = data.start + data.length;
    }
    (token, user_agent)
}

/// Where the features begin, if the login says that it has them.
fn features_start(body: &[u8]) -> Option<usize> {
    if body.len() < 60 || body[27] & 0x10 == 0 {
        return None;
    }
    let pointer = le16(body, 56);
    (pointer + 4 <= body.len()).then(|| le32(body, pointer))
}

/// The token in the data of a FEDAUTH feature: library 1 and six bytes at least.
fn token_part(body: &[u8], data: Part) -> Option<Part> {
    if data.length < 6 || (data.of(body)[0] >> 1) & 3 != 1 {
        return None;
    }
    let token = Part { start: data.start + 5, length: le32(body, data.start + 1) };
    (5 + token.length <= data.length).then_some(token)
}

fn le16(bytes: &[u8], at: usize) -> usize {
    u16::from_le_bytes(bytes[at..at + 2].try_into().unwrap()).into()
}

fn le32(bytes: &[u8], at: usize) -> usize {
    u32::from_le_bytes(bytes[at..at + 4].try_into().unwrap()) as usize
}
