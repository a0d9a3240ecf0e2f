//! The linked gate beside the other implementations, over the same events.

use bench::tuned;
use guvontsira::library;
use second::answer::{Answer, Rule};
use second::gate;

/// The library's number for an answer of the second implementation.
pub fn number(answer: Answer) -> u32 {
    match answer {
        Answer::Ok => 0,
        Answer::Refused(number) => number.into(),
        Answer::Accept => 100,
        Answer::Warn10 => 110,
        Answer::Warn30 => 130,
        Answer::Reject(Rule::C) => 203,
        Answer::Reject(Rule::P) => 216,
        Answer::Reject(Rule::Q) => 217,
        Answer::Reject(Rule::S) => 219,
        Answer::Reject(Rule::V) => 222,
        Answer::Reject(Rule::W) => 223,
    }
}

pub fn is_refused(number: u32) -> bool {
    (1..100).contains(&number)
}

/// Stands on both sides of the words that are lent to the gate.
const GUARD: u32 = 0x5a5a_a5a5;
const GUARD_WORDS: usize = 64;

/// Words to lend, with guard words around them. The auction's are of 64 bits.
#[derive(Clone, Debug, Default)]
pub struct Lent<W = u32>(Vec<W>);

impl<W: Copy + PartialEq + From<u32>> Lent<W> {
    pub fn set(&mut self, words: &[W]) {
        self.0.clear();
        self.0.resize(GUARD_WORDS, GUARD.into());
        self.0.extend_from_slice(words);
        self.0.resize(self.0.len() + GUARD_WORDS, GUARD.into());
    }

    pub fn words(&self) -> &[W] {
        &self.0[GUARD_WORDS..self.0.len() - GUARD_WORDS]
    }

    pub fn words_mut(&mut self) -> &mut [W] {
        let end = self.0.len() - GUARD_WORDS;
        &mut self.0[GUARD_WORDS..end]
    }

    pub fn is_guard_whole(&self) -> bool {
        let (before, rest) = self.0.split_at(GUARD_WORDS);
        let after = &rest[rest.len() - GUARD_WORDS..];
        before.iter().chain(after).all(|&word| word == GUARD.into())
    }
}

/// An implementation that the linked gate is held to.
#[derive(Clone, Copy, Debug, PartialEq, Eq)]
pub enum Other {
    Second,
    Tuned,
}

impl Other {
    const ALL: [Other; 2] = [Other::Second, Other::Tuned];

    pub fn name(self) -> &'static str {
        match self {
            Other::Second => "the second implementation",
            Other::Tuned => "the tuned implementation",
        }
    }

    /// The library's number for what this one answers.
    fn handle(self, words: &mut [u32], event: &[u8]) -> u32 {
        match self {
            Other::Second => number(gate::handle(words, event)),
            Other::Tuned => tuned::handle(words, event),
        }
    }
}

/// What stands at one place after an event, in the gate and in another.
#[derive(Clone, Copy, Debug, PartialEq, Eq)]
pub struct Word {
    pub place: usize,
    pub gate: u32,
    pub other: u32,
}

/// How the gate and the others part.
#[derive(Clone, Debug, PartialEq, Eq)]
pub enum Difference {
    Answer {
        other: Other,
        gate: u32,
        /// What the other one answers.
        answer: u32,
        /// Where the words part as well, if they do.
        word: Option<Word>,
    },
    /// All answer alike, but not as the case says.
    Unexpected {
        answer: u32,
        expected: u32,
    },
    Word {
        other: Other,
        word: Word,
    },
    /// A refused event changed a word.
    Refusal {
        answer: u32,
        place: usize,
        before: u32,
        after: u32,
    },
    /// A word beside those lent was written.
    Guard,
}

/// The first place where two lists of one length are not alike.
pub fn first_unlike<W: PartialEq>(one: &[W], other: &[W]) -> Option<usize> {
    // Lists are compared whole first: that is fast, and they mostly agree.
    (one != other).then(|| {
        let pairs = one.iter().zip(other);
        pairs.take_while(|(a, b)| a == b).count()
    })
}

#[derive(Clone, Debug, Default)]
pub struct Comparison {
    gate: Lent,
    /// Those of each of the others, in the order of `Other::ALL`.
    others: [Vec<u32>; Other::ALL.len()],
    /// As the last event that was not refused left them.
    before: Vec<u32>,
}

impl Comparison {
    pub fn start(&mut self, words: &[u32]) {
        self.gate.set(words);
        for copy in self.others.iter_mut().chain([&mut self.before]) {
            copy.clear();
            copy.extend(words);
        }
    }

    /// As the last event left them.
    pub fn words(&self) -> &[u32] {
        self.gate.words()
    }

    /// Hands one event to all and compares answers and every word.
    pub fn send(&mut self, event: &[u8]) -> Result<u32, Difference> {
        let answer = library::handle(self.gate.words_mut(), event);
        let words = self.gate.words();
        for (other, other_words) in Other::ALL.into_iter().zip(&mut self.others) {
            let other_answer = other.handle(other_words, event);
            compare((answer, words), other, (other_answer, other_words))?;
        }
        if !self.gate.is_guard_whole() {
            return Err(Difference::Guard);
        }
        if !is_refused(answer) {
            self.before.copy_from_slice(words);
        } else if let Some(place) = first_unlike(words, &self.before) {
            return Err(Difference::Refusal {
                answer,
                place,
                before: self.before[place],
                after: words[place],
            });
        }
        Ok(answer)
    }
}

/// The gate's answer and words against another's.
fn compare(gate: (u32, &[u32]), other: Other, theirs: (u32, &[u32])) -> Result<(), Difference> {
    let word = first_unlike(gate.1, theirs.1).map(|place| Word {
        place,
        gate: gate.1[place],
        other: theirs.1[place],
    });
    if gate.0 != theirs.0 {
        return Err(Difference::Answer {
            other,
            gate: gate.0,
            answer: theirs.0,
            word,
        });
    }
    word.map_or(Ok(()), |word| Err(Difference::Word { other, word }))
}

#[cfg(test)]
mod tests {
    use super::*;
    use crate::layout::{CLOCK, fresh, security_start};

    const CLOCK_EVENT: [u8; 5] = [1, 7, 0, 0, 0];

    /// The clock event, after one word of one of the others was spoilt.
    fn sent(other: usize, place: usize, spoilt: u32) -> Result<u32, Difference> {
        let mut comparison = Comparison::default();
        comparison.start(&fresh(2, 3));
        comparison.others[other][place] = spoilt;
        comparison.send(&CLOCK_EVENT)
    }

    #[test]
    fn all_alike() {
        let mut comparison = Comparison::default();
        comparison.start(&fresh(2, 3));
        assert_eq!(comparison.send(&CLOCK_EVENT), Ok(0));
        assert_eq!(comparison.words()[CLOCK], 7);
        assert_eq!(comparison.send(&[1, 6, 0, 0, 0]), Ok(7));
        assert_eq!(comparison.send(&[]), Ok(2));
    }

    #[test]
    fn a_wrong_word_is_told_with_its_owner() {
        let last = fresh(2, 3).len() - 1;
        for (index, other) in Other::ALL.into_iter().enumerate() {
            for place in [security_start(1), last] {
                let gate = fresh(2, 3)[place];
                let other_word = gate + 1;
                let word = Word {
                    place,
                    gate,
                    other: other_word,
                };
                let difference = Difference::Word { other, word };
                assert_eq!(sent(index, place, other_word), Err(difference));
            }
        }
    }

    #[test]
    fn a_wrong_answer_is_told_with_its_owner() {
        for (index, other) in Other::ALL.into_iter().enumerate() {
            // With a later clock of its own it refuses the event.
            let difference = Difference::Answer {
                other,
                gate: 0,
                answer: 7,
                word: Some(Word {
                    place: CLOCK,
                    gate: 7,
                    other: 8,
                }),
            };
            assert_eq!(sent(index, CLOCK, 8), Err(difference));
        }
    }
}
