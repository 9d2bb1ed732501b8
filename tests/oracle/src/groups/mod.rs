//! The groups of comparisons, each under the feature of its name.

#[cfg(feature = "capture")]
pub mod capture;
#[cfg(feature = "header")]
pub mod header;
#[cfg(feature = "labels")]
pub mod labels;
#[cfg(feature = "login")]
pub mod login;
#[cfg(feature = "packets")]
pub mod packets;
#[cfg(feature = "request")]
pub mod request;
#[cfg(feature = "response")]
pub mod response;
#[cfg(feature = "result")]
pub mod result;
#[cfg(feature = "text")]
pub mod text;

use crate::compare::Check;
use crate::random::Random;

/// How much is compared, and the seed of what is random.
#[derive(Clone, Copy)]
pub struct Size {
    pub large: bool,
    pub seed: u64,
}

impl Size {
    /// A count for each of the two sizes.
    pub fn count(self, quick: usize, large: usize) -> usize {
        if self.large { large } else { quick }
    }

    pub fn random(self, name: &str) -> Random {
        Random::new(self.seed, name)
    }
}

pub type Group = fn(Size) -> Vec<Check>;

/// All groups by name; those that are not built in have no function.
pub fn groups() -> [(&'static str, Option<Group>); 9] {
    macro_rules! group {
        ($module:ident, $name:literal) => {{
            #[cfg(feature = $name)]
            let group: Option<Group> = Some($module::compare);
            #[cfg(not(feature = $name))]
            let group: Option<Group> = None;
            ($name, group)
        }};
    }
    [
        group!(header, "header"),
        group!(text, "text"),
        group!(request, "request"),
        group!(login, "login"),
        group!(result, "result"),
        group!(response, "response"),
        group!(packets, "packets"),
        group!(capture, "capture"),
        group!(labels, "labels"),
    ]
}
