//! What is said about a failed case.

use std::fmt::{Display, Write};

use second::state::word_count;

use crate::comparison::{Difference, Other, Word, first_unlike};
use crate::layout::{fresh, meaning};
use crate::tally::words;

/// The start, the events and how the gate and another part after the last of them.
pub fn describe(start: &[u32], events: &[Vec<u8>], difference: &Difference) -> String {
    describe_start(start)
        + &lines(events.iter().map(Vec::as_slice))
        + &describe_difference(difference, start)
}

/// The events of a list, a line each.
pub fn lines<'a>(events: impl IntoIterator<Item = &'a [u8]>) -> String {
    let lines = events
        .into_iter()
        .map(|event| format!("  {}\n", events::line(event)));
    format!("events:\n{}", lines.collect::<String>())
}

/// The first place where the gate's list is not as wanted; empty if there is
/// none. `name` says what stands at a place.
pub fn first_wrong<W: PartialEq + Display>(
    gate: &[W],
    wanted: &[W],
    name: impl Fn(usize) -> String,
) -> String {
    first_unlike(gate, wanted).map_or(String::new(), |place| {
        let (gate, wanted) = (&gate[place], &wanted[place]);
        format!(
            "{} is {gate} in the gate and should be {wanted}\n",
            name(place)
        )
    })
}

fn describe_start(start: &[u32]) -> String {
    let counts = match *start {
        [customers, securities, ..] => word_count(customers, securities)
            .filter(|&count| count == start.len())
            .map(|_| (customers, securities)),
        _ => None,
    };
    let Some((customers, securities)) = counts else {
        let first = &start[..start.len().min(4)];
        return format!("start: {} words, first {first:?}\n", start.len());
    };
    let mut out =
        format!("start: a fresh state of {customers} customers and {securities} securities\n");
    let fresh = fresh(customers, securities);
    for (place, (&word, &plain)) in start.iter().zip(&fresh).enumerate() {
        if word != plain {
            let meaning = meaning(place, securities as usize);
            writeln!(out, "  but word {place} ({meaning}) is {word}").expect("a string takes all");
        }
    }
    out
}

fn describe_difference(difference: &Difference, start: &[u32]) -> String {
    let securities = start.get(1).copied().unwrap_or(0);
    // A damaged count of securities says nothing about the places.
    let name = |place: usize| match securities {
        0..=1_024 => format!("word {place} ({})", meaning(place, securities as usize)),
        _ => format!("word {place}"),
    };
    let unlike = |other: Other, word: &Word| {
        let (name, gate, theirs) = (name(word.place), word.gate, word.other);
        format!(
            "{name} is {gate} in the gate and {theirs} in {}",
            other.name()
        )
    };
    match difference {
        Difference::Answer {
            other,
            gate,
            answer,
            word,
        } => {
            let (gate, answer) = (words(*gate), words(*answer));
            let word = word
                .as_ref()
                .map_or("all words are alike".into(), |word| unlike(*other, word));
            format!("the gate answers {gate}, {} {answer}; {word}", other.name())
        }
        Difference::Unexpected { answer, expected } => format!(
            "all answer {}, the case says {}",
            words(*answer),
            words(*expected)
        ),
        Difference::Word { other, word } => unlike(*other, word),
        Difference::Refusal {
            answer,
            place,
            before,
            after,
        } => format!(
            "{} changed {} from {before} to {after}",
            words(*answer),
            name(*place)
        ),
        Difference::Guard => "a word beside those lent was written".into(),
    }
}

#[cfg(test)]
mod tests {
    use super::*;

    #[test]
    fn a_difference_names_the_implementation() {
        let start = fresh(1, 1);
        let word = Word {
            place: 2,
            gate: 7,
            other: 8,
        };
        let difference = Difference::Word {
            other: Other::Second,
            word,
        };
        assert_eq!(
            describe_difference(&difference, &start),
            "word 2 (header, clock) is 7 in the gate and 8 in the second implementation"
        );
        let difference = Difference::Answer {
            other: Other::Tuned,
            gate: 0,
            answer: 7,
            word: None,
        };
        assert_eq!(
            describe_difference(&difference, &start),
            "the gate answers ok, the tuned implementation refused 7; all words are alike"
        );
    }
}
