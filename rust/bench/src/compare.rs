//! Holds every implementation to the gate: each answer, and the words that each
//! part of a list leaves.

use std::fmt;

use crate::implementation::Implementation;
use crate::list::{List, Part};

/// How an implementation differs from the gate.
#[derive(Clone, Debug, PartialEq, Eq)]
pub struct Difference {
    other: Implementation,
    /// What is different, and then the gate's and the other's.
    what: String,
    values: [String; 2],
}

impl Difference {
    pub fn new(other: Implementation, what: String, values: [String; 2]) -> Self {
        Difference {
            other,
            what,
            values,
        }
    }
}

impl fmt::Display for Difference {
    fn fmt(&self, f: &mut fmt::Formatter<'_>) -> fmt::Result {
        let Difference {
            other,
            what,
            values: [gate, others],
        } = self;
        write!(f, "{what}: gate {gate}, {} {others}", other.name())
    }
}

/// The first implementation of several is the gate; one alone is not run.
pub fn compare(list: &List, implementations: &[Implementation]) -> Result<(), Difference> {
    compare_by(list, implementations, Implementation::answer)
}

fn compare_by(
    list: &List,
    implementations: &[Implementation],
    answer: impl Fn(Implementation, &mut [u32], &[u8]) -> String,
) -> Result<(), Difference> {
    let &[gate, _, ..] = implementations else {
        return Ok(());
    };
    let outcome = |implementation, part: &Part| {
        let mut words = list.start.clone();
        let events = part.events();
        let answers = events.map(|event| answer(implementation, &mut words, event));
        Outcome {
            answers: answers.collect(),
            words,
        }
    };
    for (number, part) in list.parts.iter().enumerate() {
        let expected = outcome(gate, part);
        for &other in &implementations[1..] {
            expected.compare(&outcome(other, part), other, number)?;
        }
    }
    Ok(())
}

/// What a part was answered and what it left.
struct Outcome {
    answers: Vec<String>,
    words: Vec<u32>,
}

impl Outcome {
    /// Where another's outcome of a part differs from this one, the gate's.
    fn compare(
        &self,
        outcome: &Outcome,
        other: Implementation,
        part: usize,
    ) -> Result<(), Difference> {
        if let Some((event, values)) = first_unlike(&self.answers, &outcome.answers) {
            let what = format!("answer to event {event} of part {part}");
            return Err(Difference::new(other, what, values));
        }
        if let Some((place, values)) = first_unlike(&self.words, &outcome.words) {
            let what = format!("word {place} after part {part}");
            return Err(Difference::new(other, what, values));
        }
        Ok(())
    }
}

/// The first place where two lists of one length are not alike, and what the
/// two have there.
pub fn first_unlike<T: PartialEq + ToString>(
    one: &[T],
    other: &[T],
) -> Option<(usize, [String; 2])> {
    let place = one.iter().zip(other).position(|(a, b)| a != b)?;
    Some((place, [one[place].to_string(), other[place].to_string()]))
}

#[cfg(test)]
mod tests {
    use super::*;
    use crate::mixture::Mixture;

    fn list(mixture: Mixture) -> List {
        mixture.prepare("2,3,4".parse().unwrap())
    }

    #[test]
    fn all_are_alike() {
        for mixture in Mixture::ALL {
            let list = list(mixture);
            assert_eq!(compare(&list, &Implementation::ALL), Ok(()), "{mixture:?}");
        }
    }

    #[test]
    fn an_answer_that_differs() {
        let is_wrong = |which, answer: &str| which == Implementation::Tuned && answer == "reject V";
        let difference = compare_by(
            &list(Mixture::Orders),
            &Implementation::ALL,
            |which, words, event| {
                let answer = which.answer(words, event);
                if is_wrong(which, &answer) {
                    return String::from("accept");
                }
                answer
            },
        );
        let message = difference.unwrap_err().to_string();
        assert!(message.starts_with("answer to event "), "{message}");
        let end = " of part 0: gate reject V, tuned accept";
        assert!(message.ends_with(end), "{message}");
    }

    #[test]
    fn a_word_that_differs() {
        let list = list(Mixture::CancelMatch);
        let last = list.start.len() - 1;
        let difference = compare_by(&list, &Implementation::ALL, |which, words, event| {
            // Damage that the gate would see would change its answer.
            words[last] = 0;
            let answer = which.answer(words, event);
            if which == Implementation::Second {
                words[last] = 7;
            }
            answer
        });
        assert_eq!(
            difference.unwrap_err().to_string(),
            format!("word {last} after part 0: gate 0, second 7")
        );
    }
}
