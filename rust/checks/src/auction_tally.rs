//! How often each answer of the auction came, and each shape of its calls.

use crate::auction_call::Call;
use crate::auction_outcome::Outcome;
use crate::auction_places::{AUCTION_PLACES, WORDS, auction_place};
use crate::auction_shapes::SHAPES;

#[derive(Clone, Debug, Default)]
pub struct AuctionTally {
    calls: u64,
    /// With two scratch lists, each call at one place.
    places: [u64; AUCTION_PLACES],
    /// With one; a call has several of them.
    shapes: [u64; SHAPES.len()],
}

impl AuctionTally {
    pub fn add(&mut self, call: &Call, outcome: &Outcome) {
        self.calls += 1;
        self.places[auction_place(call, &outcome.sums)] += 1;
        for (count, (_, is_so)) in self.shapes.iter_mut().zip(SHAPES) {
            *count += u64::from(is_so(call, outcome));
        }
    }

    /// Each with its words.
    fn counts(&self) -> impl Iterator<Item = (&'static str, u64)> {
        let shapes = SHAPES.map(|(words, _)| words);
        let words = WORDS.into_iter().chain(shapes);
        words.zip(self.places.into_iter().chain(self.shapes))
    }

    /// What should have come and did not; where nothing ran, nothing should.
    pub fn gaps(&self, group: &str) -> Vec<String> {
        gaps(self.calls, self.counts(), group)
    }
}

/// What is said of each that never came, if any call was made.
pub fn gaps(
    calls: u64,
    counts: impl Iterator<Item = (&'static str, u64)>,
    group: &str,
) -> Vec<String> {
    let never = counts.filter(|&(_, count)| calls > 0 && count == 0);
    never
        .map(|(words, _)| format!("{words}: never came in {group}"))
        .collect()
}

/// A table of both tallies, with how many calls were compared.
pub fn auction_table(fixed: &AuctionTally, random: &AuctionTally) -> String {
    let names = ["auction", "auctions", "auction-books"];
    let calls = [fixed.calls, random.calls];
    table(names, fixed.counts(), random.counts(), calls)
}

/// What came in a group of fixed calls and in one of random ones.
pub fn table(
    [what, fixed, random]: [&str; 3],
    of_fixed: impl Iterator<Item = (&'static str, u64)>,
    of_random: impl Iterator<Item = (&'static str, u64)>,
    calls: [u64; 2],
) -> String {
    let line = |(words, [fixed, random]): (&str, [u64; 2])| match fixed + random {
        0 => String::new(),
        _ => format!("{words:<34}{fixed:>17}{random:>19}\n"),
    };
    let pairs = of_fixed.zip(of_random);
    let counts = pairs.map(|((words, fixed), (_, random))| (words, [fixed, random]));
    let lines = counts.chain([("all calls", calls)]).map(line);
    format!("{what:<34}{fixed:>17}{random:>19}\n") + &lines.collect::<String>()
}

#[cfg(test)]
mod tests {
    use super::*;
    use crate::auction_outcome::compare;
    use crate::auctions::buy;
    use crate::random::Random;

    #[test]
    fn what_never_came() {
        let mut tally = AuctionTally::default();
        assert!(tally.gaps("auctions").is_empty());
        let call = Call::new(&mut Random::new(1), &[buy(50_00, 1)], 0, [0; 3]);
        tally.add(&call, &compare(&call).unwrap());
        let gaps = tally.gaps("auctions");
        // Both calls were refused with 14.
        assert_eq!(gaps.len(), WORDS.len() + SHAPES.len() - 2);
        assert_eq!(gaps[0], "refused 15: never came in auctions");
        let last = "one list: 0 behind 1,024 numbers: never came in auctions";
        assert_eq!(gaps[gaps.len() - 1], last);
    }
}
