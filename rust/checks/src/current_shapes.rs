//! What must come of calls on a list kept current (paper 02, request 7): each
//! answer, each cause of a refusal by itself and with others, and each sort of place
//! that is filled, emptied or cleared.

use std::ops::Range;

use second::auction::{Answer, MAX_ORDERS, SCRATCH_PLACES};

use crate::current_call::{Cause, Change, CurrentCall, ZERO};
use crate::current_comparison::Current;

/// A call that was compared.
pub struct Seen<'a> {
    call: &'a CurrentCall,
    causes: Vec<Cause>,
    left: &'a Current,
}

/// Its words, and whether a call has it.
type Shape = (&'static str, fn(&Seen) -> bool);

pub const SHAPES: [Shape; 45] = [
    ("add: price", |seen| seen.is_added() && seen.has_price()),
    ("add: none", |seen| seen.is_added() && !seen.has_price()),
    ("add: 14, count the list's length", |seen| {
        seen.is_add_for(&[Cause::LengthReached])
    }),
    ("add: 14, count 1,024", |seen| {
        seen.is_add_for(&[Cause::MostReached])
    }),
    ("add: 14, count above the length", |seen| {
        seen.is_add_for(&[Cause::LengthPassed])
    }),
    ("add: 14, count above 1,024", |seen| {
        seen.is_add_for(&[Cause::MostPassed])
    }),
    ("add: 14, short scratch list", |seen| {
        seen.is_add_for(&[Cause::ShortScratch])
    }),
    ("add: 14, several causes", |seen| {
        seen.call.is_add() && seen.causes_of(14) > 1
    }),
    ("add: 14 ahead of 15", |seen| {
        seen.call.is_add() && seen.has_both(14, 15)
    }),
    ("add: 15, new order", |seen| {
        seen.is_add_for(&[Cause::NewOrder])
    }),
    ("add: 15, held order", |seen| {
        seen.is_add_for(&[Cause::HeldOrder])
    }),
    ("add: 15, new and held order", |seen| {
        seen.is_add_for(&[Cause::NewOrder, Cause::HeldOrder])
    }),
    ("take: price", |seen| seen.is_taken() && seen.has_price()),
    ("take: none", |seen| seen.is_taken() && !seen.has_price()),
    ("take: 14, count above the length", |seen| {
        seen.is_take_for(&[Cause::LengthPassed])
    }),
    ("take: 14, count above 1,024", |seen| {
        seen.is_take_for(&[Cause::MostPassed])
    }),
    ("take: 14, short scratch list", |seen| {
        seen.is_take_for(&[Cause::ShortScratch])
    }),
    ("take: 14, several causes", |seen| {
        !seen.call.is_add() && seen.causes_of(14) > 1
    }),
    ("take: 14 ahead of 15", |seen| {
        !seen.call.is_add() && seen.has_both(14, 15)
    }),
    ("take: 14 ahead of 16", |seen| seen.has_both(14, 16)),
    ("take: 15, another held order", |seen| {
        seen.is_take_for(&[Cause::HeldOrder])
    }),
    ("take: 15, the order taken out", |seen| {
        seen.is_take_for(&[Cause::TakenOrder])
    }),
    ("take: 15, both", |seen| {
        seen.is_take_for(&[Cause::HeldOrder, Cause::TakenOrder])
    }),
    ("take: 15 ahead of 16", |seen| {
        seen.causes == [Cause::HeldOrder, Cause::Place]
    }),
    ("take: 16, place at the count", |seen| {
        seen.causes == [Cause::Place] && seen.place() == seen.call.kept.count
    }),
    ("take: 16, place beyond it", |seen| {
        seen.causes == [Cause::Place] && seen.place() > seen.call.kept.count
    }),
    ("take: 16, place within the list", |seen| {
        seen.causes == [Cause::Place] && seen.place() < seen.call.kept.orders.len()
    }),
    ("take: 16, the largest place", |seen| {
        seen.causes == [Cause::Place] && seen.place() == usize::MAX
    }),
    ("take: 16, no order held", |seen| {
        seen.causes == [Cause::Place] && seen.call.kept.count == 0
    }),
    ("add: the first order", |seen| {
        seen.is_added() && seen.left.kept.count == 1
    }),
    ("add: the 1,024th order", |seen| {
        seen.is_added() && seen.left.kept.count == MAX_ORDERS
    }),
    ("add: at the last place of a list", |seen| {
        seen.is_added() && seen.left.kept.past().is_empty()
    }),
    ("take: from 1,024 orders", |seen| {
        seen.is_taken() && seen.call.kept.count == MAX_ORDERS
    }),
    ("take: from a full list", |seen| {
        seen.is_taken() && seen.call.kept.past().is_empty()
    }),
    ("take: the only order", |seen| {
        seen.is_taken() && seen.left.kept.count == 0
    }),
    ("take: the first of several", |seen| {
        seen.is_taken() && seen.left.kept.count > 0 && seen.place() == 0
    }),
    ("take: between two others", |seen| {
        seen.is_taken() && (1..seen.left.kept.count).contains(&seen.place())
    }),
    ("take: the last of several", |seen| {
        seen.is_taken() && seen.left.kept.count > 0 && seen.place() == seen.left.kept.count
    }),
    ("add: 0 past the new order", |seen| {
        seen.is_added() && seen.is_cleared(seen.left.kept.count)
    }),
    ("add: 0 past 1,024 places", |seen| {
        seen.is_added() && seen.is_cleared(MAX_ORDERS)
    }),
    ("take: 0 past the last order", |seen| {
        seen.is_taken() && seen.is_cleared(seen.call.kept.count)
    }),
    ("take: 0 past 1,024 places", |seen| {
        seen.is_taken() && seen.is_cleared(MAX_ORDERS)
    }),
    ("take: 0 at the last order's place", |seen| {
        seen.is_taken() && !seen.is_cleared(seen.call.kept.count)
    }),
    ("scratch: 0 behind the last order", |seen| {
        let behind = seen.left.kept.count..SCRATCH_PLACES;
        !seen.left.is_refused() && seen.is_scratch_cleared(behind)
    }),
    ("scratch: 0 behind 1,024 numbers", |seen| {
        let behind = SCRATCH_PLACES..seen.call.kept.volumes.len();
        !seen.left.is_refused() && seen.is_scratch_cleared(behind)
    }),
];

impl<'a> Seen<'a> {
    pub fn new(call: &'a CurrentCall, left: &'a Current) -> Self {
        Seen {
            call,
            causes: call.causes(),
            left,
        }
    }

    fn is_added(&self) -> bool {
        self.is_add_for(&[])
    }

    fn is_taken(&self) -> bool {
        self.is_take_for(&[])
    }

    fn has_price(&self) -> bool {
        matches!(self.left.answer, Answer::Price { .. })
    }

    /// These causes and no other.
    fn is_add_for(&self, causes: &[Cause]) -> bool {
        self.call.is_add() && self.causes == causes
    }

    fn is_take_for(&self, causes: &[Cause]) -> bool {
        !self.call.is_add() && self.causes == causes
    }

    fn causes_of(&self, number: u8) -> usize {
        let causes = self.causes.iter();
        causes.filter(|cause| cause.number() == number).count()
    }

    fn has_both(&self, one: u8, other: u8) -> bool {
        self.causes_of(one) > 0 && self.causes_of(other) > 0
    }

    /// Of a call that takes an order out.
    fn place(&self) -> usize {
        match self.call.change {
            Change::Take(place) => place,
            Change::Add(_) => unreachable!("an order is added at the end"),
        }
    }

    /// The call found another order than zero there or behind.
    fn is_cleared(&self, first: usize) -> bool {
        let mut orders = self.call.kept.orders.iter().skip(first);
        orders.any(|order| *order != ZERO)
    }

    fn is_scratch_cleared(&self, places: Range<usize>) -> bool {
        let mut numbers = self.call.kept.volumes[places].iter();
        numbers.any(|&number| number != 0)
    }
}

#[cfg(test)]
mod tests {
    use second::auction::Order;

    use super::*;
    use crate::auctions::{ATO, buy, sell};
    use crate::current_call::Kept;
    use crate::current_comparison::compare;
    use crate::random::Random;

    fn shapes(kept: Kept, change: Change) -> Vec<&'static str> {
        let call = CurrentCall {
            kept,
            change,
            reference: 0,
        };
        let left = compare(&call).unwrap();
        let seen = Seen::new(&call, &left);
        let came = SHAPES.into_iter().filter(|(_, is_so)| is_so(&seen));
        came.map(|(words, _)| words).collect()
    }

    fn kept(held: &[Order], length: usize, places: usize) -> Kept {
        Kept::new(&mut Random::new(1), held, length, places)
    }

    #[test]
    fn refusals() {
        let (good, bad) = (buy(50_00, 100), buy(50_00, 0));
        let add = Change::Add(good);
        for (held, length, places, change, expected) in [
            (
                &[good][..],
                1,
                1_024,
                add,
                &["add: 14, count the list's length"][..],
            ),
            (&[good], 1, 1_023, add, &["add: 14, several causes"]),
            (&[bad], 2, 1_023, add, &["add: 14 ahead of 15"]),
            (&[bad], 2, 1_024, add, &["add: 15, held order"]),
            (
                &[bad],
                2,
                1_024,
                Change::Take(0),
                &["take: 15, the order taken out"],
            ),
            (&[bad], 2, 1_024, Change::Take(1), &["take: 15 ahead of 16"]),
            (
                &[bad],
                2,
                1_023,
                Change::Take(1),
                &["take: 14 ahead of 15", "take: 14 ahead of 16"],
            ),
            (
                &[good],
                2,
                1_024,
                Change::Take(1),
                &[
                    "take: 16, place at the count",
                    "take: 16, place within the list",
                ],
            ),
        ] {
            assert_eq!(shapes(kept(held, length, places), change), expected);
        }
    }

    #[test]
    fn what_is_filled_and_cleared() {
        let order = buy(50_00, 100);
        let full = vec![order; 1_024];
        assert_eq!(
            shapes(kept(&full[1..], 1_024, 1_024), Change::Add(sell(ATO, 1))),
            [
                "add: price",
                "add: the 1,024th order",
                "add: at the last place of a list",
            ]
        );
        assert_eq!(
            shapes(kept(&full, 1_025, 1_025), Change::Take(1_023)),
            [
                "take: none",
                "take: from 1,024 orders",
                "take: the last of several",
                "take: 0 past the last order",
                "take: 0 past 1,024 places",
                "scratch: 0 behind the last order",
                "scratch: 0 behind 1,024 numbers",
            ]
        );
        let mut zeros = kept(&full[..1], 1, 1_024);
        zeros.volumes.fill(0);
        assert_eq!(
            shapes(zeros, Change::Take(0)),
            [
                "take: none",
                "take: from a full list",
                "take: the only order",
                "take: 0 at the last order's place",
            ]
        );
    }
}
