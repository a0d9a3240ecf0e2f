//! What the gate says to an event.

use std::fmt;

/// A rule that rejects orders, by its letter in the paper.
#[derive(Clone, Copy, Debug, PartialEq, Eq)]
pub enum Rule {
    S,
    V,
    C,
    Q,
    W,
    P,
}

/// The answer to one event, or to the making of a fresh state.
#[derive(Clone, Copy, Debug, PartialEq, Eq)]
pub enum Answer {
    /// A market event, a cancel, a match or a rest was carried out.
    Ok,
    Accept,
    Warn30,
    Warn10,
    Reject(Rule),
    /// Turned back, with the number of the paper's table.
    Refused(u8),
}

/// The conditions under which an event or a call with an auction's list is turned
/// back, with their numbers.
#[derive(Clone, Copy, Debug, PartialEq, Eq)]
pub enum Refusal {
    State = 1,
    Length = 2,
    Kind = 3,
    Name = 4,
    Code = 5,
    Price = 6,
    Clock = 7,
    Record = 8,
    NumberTaken = 9,
    NoOpenRow = 10,
    MatchVolume = 11,
    DeskFull = 12,
    Figures = 13,
    Lists = 14,
    ListedOrder = 15,
    ListedPlace = 16,
}

impl From<Refusal> for Answer {
    fn from(refusal: Refusal) -> Self {
        Answer::Refused(refusal as u8)
    }
}

impl fmt::Display for Rule {
    fn fmt(&self, f: &mut fmt::Formatter<'_>) -> fmt::Result {
        f.write_str(match self {
            Rule::S => "S",
            Rule::V => "V",
            Rule::C => "C",
            Rule::Q => "Q",
            Rule::W => "W",
            Rule::P => "P",
        })
    }
}

impl fmt::Display for Answer {
    fn fmt(&self, f: &mut fmt::Formatter<'_>) -> fmt::Result {
        match self {
            Answer::Ok => f.write_str("ok"),
            Answer::Accept => f.write_str("accept"),
            Answer::Warn30 => f.write_str("warn 30"),
            Answer::Warn10 => f.write_str("warn 10"),
            Answer::Reject(rule) => write!(f, "reject {rule}"),
            Answer::Refused(number) => write!(f, "refused {number}"),
        }
    }
}

#[cfg(test)]
mod tests {
    use super::*;

    #[test]
    fn words_of_the_paper() {
        let words = [
            (Answer::Ok, "ok"),
            (Answer::Accept, "accept"),
            (Answer::Warn30, "warn 30"),
            (Answer::Warn10, "warn 10"),
            (Answer::Reject(Rule::S), "reject S"),
            (Answer::Reject(Rule::V), "reject V"),
            (Answer::Reject(Rule::C), "reject C"),
            (Answer::Reject(Rule::Q), "reject Q"),
            (Answer::Reject(Rule::W), "reject W"),
            (Answer::Reject(Rule::P), "reject P"),
            (Answer::Refused(2), "refused 2"),
            (Refusal::NoOpenRow.into(), "refused 10"),
            (Refusal::Figures.into(), "refused 13"),
        ];
        for (answer, word) in words {
            assert_eq!(answer.to_string(), word);
        }
    }
}
