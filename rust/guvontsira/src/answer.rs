//! What the gate says to an event.

use std::error::Error;
use std::fmt;

/// A rule that rejects orders, by its letter.
#[derive(Clone, Copy, Debug, PartialEq, Eq, Hash)]
pub enum Rule {
    /// A price outside the day's range.
    C,
    /// A large order entered again within a minute of its cancel.
    P,
    /// A price outside 50% to 150% of the reference.
    Q,
    /// A session that does not take this order, or a market-price order with no
    /// best price opposite.
    S,
    /// Volume, lot or value.
    V,
    /// An order that would meet the customer's own.
    W,
}

/// The answer to one event. `Display` gives the words of the day listing.
#[derive(Clone, Copy, Debug, PartialEq, Eq, Hash)]
pub enum Answer {
    /// A market event, a cancel, a match or a rest was carried out.
    Ok,
    /// The order may go out.
    Accept,
    /// The order may go out; its price is outside 70% to 130% of the last sale.
    Warn30,
    /// The order may go out; its position is more than ten above the lower
    /// position of the reference price, or more than ten below the upper one.
    Warn10,
    /// The order must not go out.
    Reject(Rule),
    /// Refused with this number; no word of the state changed.
    Refused(u8),
}

/// The highest refusal of an event in this release; those of an auction follow.
const LAST_REFUSAL: u32 = 13;

const REJECTS: [(Rule, u32); 6] = [
    (Rule::C, 203),
    (Rule::P, 216),
    (Rule::Q, 217),
    (Rule::S, 219),
    (Rule::V, 222),
    (Rule::W, 223),
];

impl Answer {
    /// The answer with this number of the library; `None` if no answer has it.
    pub fn from_number(number: u32) -> Option<Answer> {
        match number {
            0 => Some(Answer::Ok),
            1..=LAST_REFUSAL => u8::try_from(number).ok().map(Answer::Refused),
            100 => Some(Answer::Accept),
            110 => Some(Answer::Warn10),
            130 => Some(Answer::Warn30),
            _ => REJECTS
                .iter()
                .find(|reject| reject.1 == number)
                .map(|reject| Answer::Reject(reject.0)),
        }
    }
}

/// An archive of another release than this crate could answer what no answer
/// of this one stands for; to go on would be to guess.
pub(crate) fn known(number: u32) -> Answer {
    Answer::from_number(number)
        .unwrap_or_else(|| panic!("the linked library answers {number}, which is no answer"))
}

impl fmt::Display for Answer {
    fn fmt(&self, f: &mut fmt::Formatter<'_>) -> fmt::Result {
        match self {
            Answer::Ok => f.write_str("ok"),
            Answer::Accept => f.write_str("accept"),
            Answer::Warn30 => f.write_str("warn 30"),
            Answer::Warn10 => f.write_str("warn 10"),
            Answer::Reject(rule) => write!(f, "reject {rule:?}"),
            Answer::Refused(number) => write!(f, "refused {number}"),
        }
    }
}

/// A state could not be made.
#[derive(Clone, Copy, Debug, PartialEq, Eq)]
pub struct Refused {
    pub number: u8,
}

impl fmt::Display for Refused {
    fn fmt(&self, f: &mut fmt::Formatter<'_>) -> fmt::Result {
        Answer::Refused(self.number).fmt(f)
    }
}

impl Error for Refused {}

#[cfg(test)]
mod tests {
    use super::*;

    #[test]
    fn numbers_and_words() {
        let table = [
            (0, "ok"),
            (1, "refused 1"),
            (12, "refused 12"),
            (13, "refused 13"),
            (100, "accept"),
            (110, "warn 10"),
            (130, "warn 30"),
            (203, "reject C"),
            (216, "reject P"),
            (217, "reject Q"),
            (219, "reject S"),
            (222, "reject V"),
            (223, "reject W"),
        ];
        for (number, words) in table {
            let answer = Answer::from_number(number).map(|answer| answer.to_string());
            assert_eq!(answer.as_deref(), Some(words));
        }
        let known = (0..1_000).filter_map(Answer::from_number).count();
        assert_eq!(known, 1 + 13 + 3 + 6);
        assert_eq!(Answer::from_number(u32::MAX), None);
    }
}
