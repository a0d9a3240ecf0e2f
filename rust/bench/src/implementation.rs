//! The implementations of the gate that are set beside one another.

use std::hint::black_box;
use std::time::{Duration, Instant};

use bench::tuned;
use guvontsira::{Answer, library};
use second::gate;

use crate::list::{List, Part};

#[derive(Clone, Copy, Debug, PartialEq, Eq)]
pub enum Implementation {
    /// The proved gate, linked.
    Gate,
    /// Written from the papers alone, to be read.
    Second,
    /// Written to be fast.
    Tuned,
}

impl Implementation {
    /// The gate first: the others are compared with it.
    pub const ALL: [Implementation; 3] = [
        Implementation::Gate,
        Implementation::Second,
        Implementation::Tuned,
    ];

    /// Those that have the auction.
    pub const AUCTION: [Implementation; 2] = [Implementation::Gate, Implementation::Second];

    pub fn name(self) -> &'static str {
        match self {
            Implementation::Gate => "gate",
            Implementation::Second => "second",
            Implementation::Tuned => "tuned",
        }
    }

    pub fn named(name: &str) -> Option<Implementation> {
        let mut all = Implementation::ALL.into_iter();
        all.find(|implementation| implementation.name() == name)
    }

    /// The answer to one event, in the words of the day listing.
    pub fn answer(self, words: &mut [u32], event: &[u8]) -> String {
        match self {
            Implementation::Gate => listed(library::handle(words, event)),
            Implementation::Second => gate::handle(words, event).to_string(),
            Implementation::Tuned => listed(tuned::handle(words, event)),
        }
    }

    /// How long it takes to handle the list. The words are set anew first, and
    /// that is not timed.
    pub fn time(self, list: &List, words: &mut [u32]) -> Duration {
        words.copy_from_slice(&list.start);
        let mut total = Duration::ZERO;
        for part in &list.parts {
            // To copy all words of a large state before each part would slow the
            // events that follow.
            words[list.desks()].copy_from_slice(&list.start[list.desks()]);
            total += match self {
                Implementation::Gate => timed(part, |event| library::handle(words, event)),
                Implementation::Second => timed(part, |event| gate::handle(words, event)),
                Implementation::Tuned => timed(part, |event| tuned::handle(words, event)),
            };
        }
        total
    }
}

fn listed(number: u32) -> String {
    match Answer::from_number(number) {
        Some(answer) => answer.to_string(),
        None => format!("{number}, which is no answer"),
    }
}

fn timed<A>(part: &Part, mut handle: impl FnMut(&[u8]) -> A) -> Duration {
    let begin = Instant::now();
    for event in part.events() {
        black_box(handle(black_box(event)));
    }
    begin.elapsed()
}
