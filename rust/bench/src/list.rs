//! Prepared lists of events: what is timed is only their handling.

use std::ops::Range;

use second::answer::Answer;
use second::gate;
use second::state::{Header, word_count};

/// Events in parts, and the words that each part begins with.
#[derive(Default)]
pub struct List {
    pub start: Vec<u32>,
    pub parts: Vec<Part>,
}

impl List {
    /// How many events all parts have.
    pub fn len(&self) -> usize {
        self.parts.iter().map(Part::len).sum()
    }

    /// Where the desks stand. A part that another follows changes no other words.
    pub fn desks(&self) -> Range<usize> {
        let header = Header::read(&self.start).expect("the start is a whole state");
        header.desks_place()
    }
}

/// Events that stand one after another.
#[derive(Default)]
pub struct Part {
    bytes: Vec<u8>,
    /// Where each event ends.
    ends: Vec<usize>,
}

impl Part {
    pub fn events(&self) -> impl Iterator<Item = &[u8]> {
        let starts = [0].into_iter().chain(self.ends.iter().copied());
        starts
            .zip(&self.ends)
            .map(|(start, &end)| &self.bytes[start..end])
    }

    pub fn len(&self) -> usize {
        self.ends.len()
    }

    fn push(&mut self, event: &[u8]) {
        self.bytes.extend(event);
        self.ends.push(self.bytes.len());
    }
}

/// Writes a list and goes along with the second implementation, so that no
/// event is refused by mistake.
pub struct Recorder {
    words: Vec<u32>,
    list: List,
}

impl Recorder {
    pub fn new(customers: u32, securities: u32) -> Self {
        let count = word_count(customers, securities).expect("counts are in range");
        let mut words = vec![0; count];
        gate::fresh(&mut words, customers, securities);
        Recorder {
            words,
            list: List::default(),
        }
    }

    /// Before the list begins, an event only leads to its start.
    pub fn add(&mut self, event: &[u8]) -> Answer {
        let answer = gate::handle(&mut self.words, event);
        assert!(!matches!(answer, Answer::Refused(_)), "{event:?} {answer}");
        if let Some(part) = self.list.parts.last_mut() {
            part.push(event);
        }
        answer
    }

    pub fn begin(&mut self) {
        self.list.start = self.words.clone();
        self.list.parts = vec![Part::default()];
    }

    /// The next part, with the desks that the list began with.
    pub fn begin_again(&mut self) {
        let desks = self.list.desks();
        self.words[desks.clone()].copy_from_slice(&self.list.start[desks]);
        assert_eq!(self.words, self.list.start, "only desks are set anew");
        self.list.parts.push(Part::default());
    }

    pub fn len(&self) -> usize {
        self.list.len()
    }

    pub fn finish(self) -> List {
        self.list
    }
}
