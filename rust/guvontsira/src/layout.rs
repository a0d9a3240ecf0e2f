//! Where the records stand in a state's words.

use crate::codes::Session;

pub const HEADER_WORDS: usize = 4;
pub const SECURITY_WORDS: usize = 17;
pub const DESK_WORDS: usize = 291;
pub const ROW_WORDS: usize = 9;

/// How many words a state has; `None` if a count is out of range.
pub fn word_count(customers: u32, securities: u32) -> Option<usize> {
    let in_range = (1..=256).contains(&customers) && (1..=1_024).contains(&securities);
    in_range.then(|| desk_start(securities, customers))
}

fn security_start(security: u32) -> usize {
    HEADER_WORDS + SECURITY_WORDS * security as usize
}

fn desk_start(securities: u32, customer: u32) -> usize {
    security_start(securities) + DESK_WORDS * customer as usize
}

/// The header, and all words behind it.
pub struct Words<'a> {
    customers: u32,
    securities: u32,
    pub clock: u32,
    pub session: Session,
    all: &'a [u32],
}

impl<'a> Words<'a> {
    /// `None` if the words are no state's.
    pub fn read(all: &'a [u32]) -> Option<Self> {
        let &[customers, securities, clock, session, ..] = all else {
            return None;
        };
        let fits = word_count(customers, securities) == Some(all.len()) && clock <= 86_399_999;
        let session = Session::from_code(session)?;
        fits.then_some(Words {
            customers,
            securities,
            clock,
            session,
            all,
        })
    }

    pub fn security(&self, security: u32) -> Option<&'a [u32]> {
        let words = || &self.all[security_start(security)..][..SECURITY_WORDS];
        (security < self.securities).then(words)
    }

    pub fn desk(&self, customer: u32) -> Option<&'a [u32]> {
        let words = || &self.all[desk_start(self.securities, customer)..][..DESK_WORDS];
        (customer < self.customers).then(words)
    }
}
