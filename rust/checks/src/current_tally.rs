//! How often each shape of the calls on a list kept current came.

use crate::auction_tally::{gaps, table};
use crate::current_call::CurrentCall;
use crate::current_comparison::Current;
use crate::current_shapes::{SHAPES, Seen};

#[derive(Clone, Debug)]
pub struct CurrentTally {
    calls: u64,
    /// A call has several of them.
    shapes: [u64; SHAPES.len()],
}

impl CurrentTally {
    pub fn new() -> Self {
        CurrentTally {
            calls: 0,
            shapes: [0; SHAPES.len()],
        }
    }

    pub fn add(&mut self, call: &CurrentCall, left: &Current) {
        self.calls += 1;
        let seen = Seen::new(call, left);
        for (count, (_, is_so)) in self.shapes.iter_mut().zip(SHAPES) {
            *count += u64::from(is_so(&seen));
        }
    }

    /// Each with its words.
    fn counts(&self) -> impl Iterator<Item = (&'static str, u64)> {
        SHAPES.map(|(words, _)| words).into_iter().zip(self.shapes)
    }

    /// What should have come and did not; where nothing ran, nothing should.
    pub fn gaps(&self, group: &str) -> Vec<String> {
        gaps(self.calls, self.counts(), group)
    }
}

/// A table of both tallies, with how many calls were compared.
pub fn current_table(fixed: &CurrentTally, random: &CurrentTally) -> String {
    let names = [
        "auction kept current",
        "auction-current",
        "auction-histories",
    ];
    let calls = [fixed.calls, random.calls];
    table(names, fixed.counts(), random.counts(), calls)
}

#[cfg(test)]
mod tests {
    use super::*;
    use crate::current_call::{Change, Kept};
    use crate::current_comparison::compare;
    use crate::random::Random;

    #[test]
    fn what_never_came() {
        let mut tally = CurrentTally::new();
        assert!(tally.gaps("auction-current").is_empty());
        let call = CurrentCall {
            kept: Kept::new(&mut Random::new(1), &[], 0, 1_024),
            change: Change::Take(7),
            reference: 0,
        };
        tally.add(&call, &compare(&call).unwrap());
        let gaps = tally.gaps("auction-current");
        // Place 7 is beyond the count of a list that holds no order.
        assert_eq!(gaps.len(), SHAPES.len() - 2);
        assert_eq!(gaps[0], "add: price: never came in auction-current");
    }
}
