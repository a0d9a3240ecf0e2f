//! How often each answer came, and from which kind of event.

use guvontsira::Answer;

use crate::places::{PLACES, POSSIBLE, place_words};

/// From a fresh state these never come.
const NEVER_FROM_FRESH: [u32; 2] = [1, 8];

#[derive(Clone, Debug)]
pub struct Tally {
    counts: [[u64; 256]; PLACES],
}

impl Tally {
    pub fn new() -> Self {
        Tally {
            counts: [[0; 256]; PLACES],
        }
    }

    /// An answer to an event that is counted at this place.
    pub fn add(&mut self, place: usize, answer: u32) {
        // All implementations gave this answer, so it is one of the paper's.
        self.counts[place][answer as usize] += 1;
    }

    fn total(&self, answer: u32) -> u64 {
        self.counts.iter().map(|kind| kind[answer as usize]).sum()
    }

    /// What should have come and did not, and what came and should not have.
    pub fn gaps(&self) -> Vec<String> {
        let mut gaps = Vec::new();
        for (place, possible) in POSSIBLE.iter().enumerate() {
            for answer in 0..256 {
                let is_possible = possible.contains(&answer);
                let count = self.counts[place][answer as usize];
                if is_possible != (count > 0) {
                    gaps.push(format!(
                        "{} came {count} times from {}",
                        words(answer),
                        place_words(place)
                    ));
                }
            }
        }
        gaps
    }

    /// The same for histories from fresh states.
    pub fn gaps_from_fresh(&self) -> Vec<String> {
        let mut gaps = Vec::new();
        for (place, possible) in POSSIBLE.iter().enumerate() {
            for &answer in *possible {
                let count = self.counts[place][answer as usize];
                if NEVER_FROM_FRESH.contains(&answer) == (count > 0) {
                    gaps.push(format!(
                        "{} came {count} times from {} in histories",
                        words(answer),
                        place_words(place)
                    ));
                }
            }
        }
        gaps
    }
}

/// A table of both tallies.
pub fn table(all: &Tally, histories: &Tally) -> String {
    let mut out = format!("{:<12}{:>14}{:>14}\n", "answer", "all cases", "histories");
    for answer in (0..256).filter(|&answer| all.total(answer) > 0) {
        out += &format!(
            "{:<12}{:>14}{:>14}\n",
            words(answer),
            all.total(answer),
            histories.total(answer)
        );
    }
    out
}

/// An answer's words, or its number where it has none.
pub fn words(answer: u32) -> String {
    Answer::from_number(answer).map_or(format!("number {answer}"), |answer| answer.to_string())
}
