//! Runs cases, counts them and tells about those that fail.

use std::collections::HashMap;
use std::fmt;
use std::time::{Duration, Instant};

use crate::auction_call::Call;
use crate::auction_outcome::{Outcome, compare};
use crate::auction_tally::{AuctionTally, auction_table};
use crate::comparison::{Comparison, Difference};
use crate::current_call::CurrentCall;
use crate::current_comparison::{self, Current};
use crate::current_tally::{CurrentTally, current_table};
use crate::places::place;
use crate::random::Random;
use crate::report;
use crate::shares::Shares;
use crate::shrink::shrink;
use crate::tally::{self, Tally};

/// After so many failures the rest of a group is not tried: one fault fails
/// many cases.
const MOST_FAILURES: u32 = 3;

const PROGRESS: Duration = Duration::from_secs(5);

/// Where a list of events fails, and how.
type Failure = (usize, Difference);

pub struct Program {
    seed: u64,
    group: &'static str,
    round: Option<u64>,
    comparison: Comparison,
    pub passed: u64,
    pub failed: u64,
    failed_in: HashMap<&'static str, u32>,
    events: u64,
    shares: Shares,
    all: Tally,
    histories: Tally,
    counts_history: bool,
    /// Of the fixed and of the random calls.
    auctions: AuctionTally,
    auction_books: AuctionTally,
    auction_current: CurrentTally,
    auction_histories: CurrentTally,
    started: Instant,
    told: Instant,
}

impl Program {
    pub fn new(seed: u64) -> Self {
        Program {
            seed,
            group: "",
            round: None,
            comparison: Comparison::default(),
            passed: 0,
            failed: 0,
            failed_in: HashMap::new(),
            events: 0,
            shares: Shares::new(),
            all: Tally::new(),
            histories: Tally::new(),
            counts_history: false,
            auctions: AuctionTally::default(),
            auction_books: AuctionTally::default(),
            auction_current: CurrentTally::new(),
            auction_histories: CurrentTally::new(),
            started: Instant::now(),
            told: Instant::now(),
        }
    }

    pub fn enter(&mut self, group: &'static str, round: Option<u64>) {
        self.group = group;
        self.round = round;
        self.shares.enter(group);
        self.counts_history = group == "histories";
        if round.is_none() {
            // Should the gate never come back, the last line says from where.
            eprintln!("{} s: {group}", self.elapsed().as_secs());
        }
    }

    pub fn elapsed(&self) -> Duration {
        self.started.elapsed()
    }

    pub fn is_given_up(&self, group: &str) -> bool {
        self.failed_in.get(group).copied().unwrap_or(0) >= MOST_FAILURES
    }

    /// The generator of this group and round.
    pub fn random(&self) -> Random {
        Random::of_round(self.seed, self.group, self.round.unwrap_or(0))
    }

    /// Events in turn from these words, all implementations beside each other.
    pub fn case(&mut self, name: fmt::Arguments, start: &[u32], events: &[Vec<u8>]) {
        self.case_expecting(name, start, events, &[]);
    }

    /// The same, where the case also says the answers to its events; `None`
    /// leaves one open.
    pub fn case_expecting(
        &mut self,
        name: fmt::Arguments,
        start: &[u32],
        events: &[Vec<u8>],
        expected: &[Option<u32>],
    ) {
        if self.is_given_up(self.group) {
            return;
        }
        let Some((place, difference)) = self.in_turn(start, events, expected, true) else {
            self.pass();
            return;
        };
        let events = &events[..=place];
        let (events, difference) = match difference {
            // What a case says of its answers holds for its own list only.
            Difference::Unexpected { .. } => (events.to_vec(), difference),
            _ => {
                let short = shrink(events, |events| {
                    self.in_turn(start, events, &[], false).is_some()
                });
                let found = self.in_turn(start, &short, &[], false);
                (
                    short,
                    found.map_or(difference, |(_, difference)| difference),
                )
            }
        };
        self.fail(name, &report::describe(start, &events, &difference));
    }

    /// Each event by itself from these words.
    pub fn each(&mut self, name: fmt::Arguments, start: &[u32], events: &[Vec<u8>]) {
        if self.is_given_up(self.group) {
            return;
        }
        for event in events {
            let event = std::slice::from_ref(event);
            if let Some((_, difference)) = self.in_turn(start, event, &[], true) {
                self.fail(name, &report::describe(start, event, &difference));
                return;
            }
        }
        self.pass();
    }

    /// An auction with two scratch lists and with one, by the library and by the
    /// second implementation. `None` where they part, or where the group is given
    /// up.
    pub fn auction(&mut self, name: fmt::Arguments, call: &Call) -> Option<Outcome> {
        if self.is_given_up(self.group) {
            return None;
        }
        let Ok(outcome) = compare(call) else {
            self.fail_auction(name, call);
            return None;
        };
        let tally = match self.round {
            None => &mut self.auctions,
            Some(_) => &mut self.auction_books,
        };
        tally.add(call, &outcome);
        self.pass();
        Some(outcome)
    }

    fn fail_auction(&mut self, name: fmt::Arguments, call: &Call) {
        let with = |orders: &[_]| Call {
            orders: orders.to_vec(),
            ..call.clone()
        };
        let short = with(&shrink(&call.orders, |orders| {
            compare(&with(orders)).is_err()
        }));
        let difference = compare(&short).err();
        let difference = difference.unwrap_or("a second time they do not part".into());
        self.fail(name, &(short.describe() + &difference));
    }

    /// One change of a list kept current, by the library and by the second
    /// implementation. `None` where they part, or where the group is given up.
    pub fn current(&mut self, name: fmt::Arguments, call: &CurrentCall) -> Option<Current> {
        if self.is_given_up(self.group) {
            return None;
        }
        let Ok(left) = current_comparison::compare(call) else {
            self.fail_current(name, call);
            return None;
        };
        let tally = match self.round {
            None => &mut self.auction_current,
            Some(_) => &mut self.auction_histories,
        };
        tally.add(call, &left);
        self.pass();
        Some(left)
    }

    fn fail_current(&mut self, name: fmt::Arguments, call: &CurrentCall) {
        let places: Vec<usize> = (0..call.kept.orders.len()).collect();
        let short = call.with_places(&shrink(&places, |places| {
            current_comparison::compare(&call.with_places(places)).is_err()
        }));
        let difference = current_comparison::compare(&short).err();
        let difference = difference.unwrap_or("a second time they do not part".into());
        self.fail(name, &(short.describe() + &difference));
    }

    /// Anything else that must hold.
    pub fn holds(
        &mut self,
        name: fmt::Arguments,
        condition: bool,
        detail: impl FnOnce() -> String,
    ) {
        if self.is_given_up(self.group) {
            return;
        }
        if condition {
            self.pass();
        } else {
            self.fail(name, &detail());
        }
    }

    fn in_turn(
        &mut self,
        start: &[u32],
        events: &[Vec<u8>],
        expected: &[Option<u32>],
        counts: bool,
    ) -> Option<Failure> {
        self.comparison.start(start);
        for (place, event) in events.iter().enumerate() {
            let answer = match self.comparison.send(event) {
                Ok(answer) => answer,
                Err(difference) => return Some((place, difference)),
            };
            if counts {
                self.count(event, answer);
            }
            if let Some(&Some(expected)) = expected.get(place)
                && expected != answer
            {
                return Some((place, Difference::Unexpected { answer, expected }));
            }
        }
        None
    }

    fn count(&mut self, event: &[u8], answer: u32) {
        self.events += 1;
        if let Some(share) = self.shares.current() {
            share.events += 1;
        }
        let place = place(self.comparison.words(), event, answer);
        self.all.add(place, answer);
        if self.counts_history {
            self.histories.add(place, answer);
        }
    }

    fn count_case(&mut self) {
        if let Some(share) = self.shares.current() {
            share.cases += 1;
        }
    }

    fn pass(&mut self) {
        self.passed += 1;
        self.count_case();
        if self.told.elapsed() >= PROGRESS {
            self.told = Instant::now();
            let seconds = self.elapsed().as_secs();
            let round = self
                .round
                .map_or(String::new(), |round| format!(" round {round},"));
            eprintln!(
                "{seconds} s: {},{round} {} cases, {} events",
                self.group, self.passed, self.events
            );
        }
    }

    fn fail(&mut self, name: fmt::Arguments, detail: &str) {
        self.failed += 1;
        self.count_case();
        *self.failed_in.entry(self.group).or_default() += 1;
        let (group, seed) = (self.group, self.seed);
        let round = self
            .round
            .map_or(String::new(), |round| format!(" --from {round}"));
        eprintln!("FAILED {group}: {name}");
        eprintln!("to repeat: checks --seed {seed} --case {group}{round} --rounds 1\n{detail}\n");
    }

    /// Says what each group had and how often each answer came. Where all groups
    /// ran, it is a failure if one had no case, or an answer never came that
    /// should have, or came that should not. Of the auction's answers and of what
    /// its calls leave it is one wherever their group ran.
    pub fn finish(&mut self, is_whole: bool, enough_rounds: bool) {
        print!("{}", self.shares.table());
        print!("{}", tally::table(&self.all, &self.histories));
        print!("{}", auction_table(&self.auctions, &self.auction_books));
        let [fixed, random] = [&self.auction_current, &self.auction_histories];
        print!("{}", current_table(fixed, random));
        if self.failed > 0 {
            return;
        }
        let mut gaps = self.auctions.gaps("auctions");
        gaps.extend(self.auction_current.gaps("auction-current"));
        if enough_rounds {
            gaps.extend(self.auction_books.gaps("auction-books"));
            gaps.extend(self.auction_histories.gaps("auction-histories"));
        }
        if is_whole {
            gaps.extend(self.all.gaps());
            let idle = self.shares.idle().into_iter();
            gaps.extend(idle.map(|group| format!("no case of {group} ran")));
        }
        if is_whole && enough_rounds {
            gaps.extend(self.histories.gaps_from_fresh());
        }
        if !gaps.is_empty() {
            self.failed += 1;
            eprintln!("FAILED answers (seed {}):\n{}", self.seed, gaps.join("\n"));
        } else if is_whole {
            self.passed += 1;
        }
    }
}
