//! What the linked library and the second implementation are handed for one change
//! of a list kept current (paper 02, request 7).

use second::auction::{MAX_ORDERS, Order, SCRATCH_PLACES};
use second::ladder;
use second::state::MAX_VOLUME;

use crate::auction_call::describe_orders;
use crate::random::Random;

/// "places past the count are zero afterwards"
pub const ZERO: Order = Order {
    side: 0,
    price: 0,
    volume: 0,
};

/// All that a call may write.
#[derive(Clone, Debug, PartialEq, Eq)]
pub struct Kept {
    pub orders: Vec<Order>,
    /// May be wrong, also above the list's length.
    pub count: usize,
    /// Request 6's scratch list.
    pub volumes: Vec<u64>,
}

impl Kept {
    /// A list of so many places that holds these orders, with random ones past them,
    /// and a scratch list of so many random numbers.
    pub fn new(random: &mut Random, held: &[Order], length: usize, places: usize) -> Self {
        let mut kept = Kept {
            orders: held.to_vec(),
            count: held.len(),
            volumes: vec![0; places],
        };
        kept.orders.resize(length, ZERO);
        kept.litter(random);
        kept
    }

    /// Puts random numbers wherever a call may not look.
    pub fn litter(&mut self, random: &mut Random) {
        let held = self.held().len();
        for order in &mut self.orders[held..] {
            *order = Order {
                side: random.word(),
                price: random.word(),
                volume: random.word(),
            };
        }
        self.volumes.fill_with(|| random.next());
    }

    /// The orders below the count; of a list that is not so long, all.
    pub fn held(&self) -> &[Order] {
        &self.orders[..self.count.min(self.orders.len())]
    }

    pub fn past(&self) -> &[Order] {
        &self.orders[self.held().len()..]
    }
}

#[derive(Clone, Copy, Debug, PartialEq, Eq)]
pub enum Change {
    Add(Order),
    /// Out of this place.
    Take(usize),
}

/// Why request 7 turns a call away.
#[derive(Clone, Copy, Debug, PartialEq, Eq)]
pub enum Cause {
    /// "Adding where the count is the list's length"
    LengthReached,
    /// "or 1,024"
    MostReached,
    /// "either call with a count above one of these"
    LengthPassed,
    MostPassed,
    /// "or a short scratch list"
    ShortScratch,
    /// "a bad order, new or held"; of the held ones that which is to be taken out
    /// is named apart.
    NewOrder,
    HeldOrder,
    TakenOrder,
    /// "the place is at or beyond the count"
    Place,
}

impl Cause {
    pub fn number(self) -> u8 {
        match self {
            Cause::LengthReached
            | Cause::MostReached
            | Cause::LengthPassed
            | Cause::MostPassed
            | Cause::ShortScratch => 14,
            Cause::NewOrder | Cause::HeldOrder | Cause::TakenOrder => 15,
            Cause::Place => 16,
        }
    }
}

/// "15 for a side not 0 or 1, a price neither 0 nor legal, or a volume outside 1 to
/// 20,000,000" (request 5).
fn is_bad(order: &Order) -> bool {
    order.side > 1
        || order.is_limit() && !ladder::legal(order.price)
        || order.volume == 0
        || order.volume > MAX_VOLUME
}

#[derive(Clone, Debug)]
pub struct CurrentCall {
    pub kept: Kept,
    pub change: Change,
    pub reference: u32,
}

impl CurrentCall {
    pub fn is_add(&self) -> bool {
        matches!(self.change, Change::Add(_))
    }

    /// All that it could be turned away for, by number. Of a count above the list's
    /// length the whole list is held.
    pub fn causes(&self) -> Vec<Cause> {
        let (length, count) = (self.kept.orders.len(), self.kept.count);
        let held = self.kept.held().iter().enumerate();
        let is_taken = |place: usize| self.change == Change::Take(place);
        let is_held_bad = |taken: bool| {
            let mut held = held.clone();
            held.any(|(place, order)| is_taken(place) == taken && is_bad(order))
        };
        let (is_new_bad, is_beyond) = match self.change {
            Change::Add(order) => (is_bad(&order), false),
            Change::Take(place) => (false, place >= count),
        };
        let causes = [
            (Cause::LengthReached, self.is_add() && count == length),
            (Cause::MostReached, self.is_add() && count == MAX_ORDERS),
            (Cause::LengthPassed, count > length),
            (Cause::MostPassed, count > MAX_ORDERS),
            (
                Cause::ShortScratch,
                self.kept.volumes.len() < SCRATCH_PLACES,
            ),
            (Cause::NewOrder, is_new_bad),
            (Cause::HeldOrder, is_held_bad(false)),
            (Cause::TakenOrder, is_held_bad(true)),
            (Cause::Place, is_beyond),
        ];
        let met = causes.into_iter().filter(|&(_, is_met)| is_met);
        met.map(|(cause, _)| cause).collect()
    }

    /// The number that the request says for it.
    pub fn refusal(&self) -> Option<u8> {
        self.causes().first().map(|cause| cause.number())
    }

    /// What becomes of the orders that are held, where it is not refused.
    pub fn applied(&self, held: &mut Vec<Order>) {
        match self.change {
            Change::Add(order) => held.push(order),
            Change::Take(place) => {
                held.remove(place);
            }
        }
    }

    /// The same with some places of the list alone. A count within the list and a
    /// place below it stay what they were for.
    pub fn with_places(&self, places: &[usize]) -> CurrentCall {
        let length = self.kept.orders.len();
        let below = |end: usize| places.iter().filter(|&&place| place < end).count();
        let count = match self.kept.count {
            count if count <= length => below(count),
            count => count,
        };
        let change = match self.change {
            Change::Take(place) if place < self.kept.held().len() => Change::Take(below(place)),
            change => change,
        };
        let orders = places.iter().map(|&place| self.kept.orders[place]);
        CurrentCall {
            kept: Kept {
                orders: orders.collect(),
                count,
                volumes: self.kept.volumes.clone(),
            },
            change,
            reference: self.reference,
        }
    }

    /// Everything that a reader needs to make the call again, but for what the
    /// scratch list holds.
    pub fn describe(&self) -> String {
        let Kept {
            orders,
            count,
            volumes,
        } = &self.kept;
        let change = match self.change {
            Change::Add(order) => format!("add{}", describe_orders(&[order])),
            Change::Take(place) => format!("take out of place {place}\n"),
        };
        format!(
            "auction kept current, reference {}, a scratch list of {} places, a list of {} with \
             count {count}\n{change}held:\n{}past the count:\n{}",
            self.reference,
            volumes.len(),
            orders.len(),
            describe_orders(self.kept.held()),
            describe_orders(self.kept.past())
        )
    }
}

#[cfg(test)]
mod tests {
    use super::*;
    use crate::auctions::{ATO, buy, sell};

    const BAD: Order = buy(50_00, 0);

    fn call(held: &[Order], length: usize, places: usize, change: Change) -> CurrentCall {
        CurrentCall {
            kept: Kept::new(&mut Random::new(1), held, length, places),
            change,
            reference: 7,
        }
    }

    #[test]
    fn each_cause() {
        let add = Change::Add(buy(50_00, 1));
        let full = vec![sell(ATO, 1); 1_024];
        for (held, length, places, change, cause) in [
            (&full[..5], 5, 1_024, add, Cause::LengthReached),
            (&full, 1_025, 1_024, add, Cause::MostReached),
            (&full[..5], 6, 1_023, add, Cause::ShortScratch),
            (&full[..5], 5, 0, Change::Take(4), Cause::ShortScratch),
            (&full[..5], 6, 1_024, Change::Add(BAD), Cause::NewOrder),
            (&[BAD, buy(ATO, 1)], 3, 1_024, add, Cause::HeldOrder),
            (
                &[BAD, buy(ATO, 1)],
                3,
                1_024,
                Change::Take(1),
                Cause::HeldOrder,
            ),
            (&[BAD], 3, 1_024, Change::Take(0), Cause::TakenOrder),
            (&full, 1_024, 1_024, Change::Take(1_024), Cause::Place),
            (&[], 3, 1_024, Change::Take(0), Cause::Place),
        ] {
            let call = call(held, length, places, change);
            assert_eq!(call.causes(), [cause]);
            assert_eq!(call.refusal(), Some(cause.number()));
        }
        for change in [add, Change::Take(0)] {
            let mut call = call(&full[..5], 5, 1_024, change);
            call.kept.count = 6;
            assert_eq!(call.causes(), [Cause::LengthPassed]);
            call.kept.orders.resize(1_025, sell(ATO, 1));
            call.kept.count = 1_025;
            call.kept.orders.push(ZERO);
            assert_eq!(call.causes(), [Cause::MostPassed]);
        }
    }

    #[test]
    fn not_refused() {
        let full = vec![sell(ATO, 1); 1_024];
        let add = Change::Add(buy(50_00, 1));
        for (count, length, change) in [
            (0, 1, add),
            (1_023, 1_024, add),
            (1_023, 1_100, add),
            (1, 1, Change::Take(0)),
            (1_024, 1_024, Change::Take(1_023)),
            (1_024, 1_100, Change::Take(0)),
        ] {
            let call = call(&full[..count], length, 1_024, change);
            assert_eq!(call.refusal(), None, "{count} of {length}, {change:?}");
        }
    }

    #[test]
    fn the_first_number() {
        let mut call = call(&[BAD; 3], 3, 1_023, Change::Take(usize::MAX));
        assert_eq!(
            call.causes(),
            [Cause::ShortScratch, Cause::HeldOrder, Cause::Place]
        );
        assert_eq!(call.refusal(), Some(14));
        call.kept.volumes.push(0);
        assert_eq!(call.refusal(), Some(15));
        call.kept.orders.fill(buy(ATO, 1));
        assert_eq!(call.refusal(), Some(16));
    }

    #[test]
    fn some_places_of_a_list() {
        let held = [buy(ATO, 1), buy(ATO, 2), buy(ATO, 3)];
        let whole = call(&held, 5, 1_024, Change::Take(2));
        let part = whole.with_places(&[0, 2, 4]);
        assert_eq!(part.kept.held(), [held[0], held[2]]);
        assert_eq!(part.kept.past(), [whole.kept.orders[4]]);
        assert_eq!(part.change, Change::Take(1));
        let mut beyond = call(&held, 5, 1_024, Change::Take(7));
        beyond.kept.count = 9;
        let part = beyond.with_places(&[1]);
        assert_eq!((part.kept.count, part.change), (9, Change::Take(7)));
    }

    #[test]
    fn a_call_to_read() {
        let mut call = call(&[buy(50_00, 100); 2], 3, 1_025, Change::Add(sell(ATO, 5)));
        call.kept.orders[2] = ZERO;
        assert_eq!(
            call.describe(),
            "auction kept current, reference 7, a scratch list of 1025 places, a list of 3 with \
             count 2\n\
             add  side 1 price 0 volume 5\n\
             held:\n  \
             side 0 price 5000 volume 100, 2 times\n\
             past the count:\n  \
             side 0 price 0 volume 0\n"
        );
    }
}
