//! One change of a list kept current (paper 02, request 7), by the linked library
//! and by the second implementation: the answer, every order of the list, the count
//! and every number of the scratch list. Then, by itself, what the library left.

use std::fmt;

use guvontsira::library::{self, AuctionNumbers, AuctionOrder};
use second::auction::{Answer, Order};
use second::current;

use crate::auction_comparison::{NO_ORDER, numbers, of_library, words_of};
use crate::comparison::{Lent, first_unlike};
use crate::current_call::{Change, CurrentCall, Kept, ZERO};

/// So many stand on both sides of the orders that are lent.
const ORDERS_AROUND: usize = 64;
/// Stands on both sides of the count.
const COUNT_AROUND: usize = 0x5a5a_a5a5;

/// What both gave and left.
#[derive(Clone, Debug, PartialEq, Eq)]
pub struct Current {
    pub answer: Answer,
    pub kept: Kept,
}

impl Current {
    pub fn is_refused(&self) -> bool {
        matches!(self.answer, Answer::Refused(_))
    }
}

/// What the library is lent, with guards around each part.
struct Guarded {
    orders: Vec<AuctionOrder>,
    count: [usize; 3],
    volumes: Lent<u64>,
}

impl Guarded {
    fn new(kept: &Kept) -> Self {
        let around = [NO_ORDER; ORDERS_AROUND];
        let orders = kept.orders.iter().map(of_library);
        let mut volumes = Lent::default();
        volumes.set(&kept.volumes);
        Guarded {
            orders: around.into_iter().chain(orders).chain(around).collect(),
            count: [COUNT_AROUND, kept.count, COUNT_AROUND],
            volumes,
        }
    }

    fn change(&mut self, change: Change, reference: u32) -> AuctionNumbers {
        let end = self.orders.len() - ORDERS_AROUND;
        let orders = &mut self.orders[ORDERS_AROUND..end];
        let (count, volumes) = (&mut self.count[1], self.volumes.words_mut());
        match change {
            Change::Add(order) => {
                library::auction_add(orders, count, of_library(&order), reference, volumes)
            }
            Change::Take(place) => library::auction_take(orders, count, place, reference, volumes),
        }
    }

    /// What stands between the guards, or which of them was written.
    fn whole(&self) -> Result<Kept, String> {
        let end = self.orders.len() - ORDERS_AROUND;
        let [before, count, after] = self.count;
        let mut around = self.orders[..ORDERS_AROUND].iter();
        if !around.all(|order| *order == NO_ORDER) {
            return Err("an order ahead of the list was written".into());
        }
        if !self.orders[end..].iter().all(|order| *order == NO_ORDER) {
            return Err("an order behind the list was written".into());
        }
        if [before, after] != [COUNT_AROUND; 2] {
            return Err("a number beside the count was written".into());
        }
        if !self.volumes.is_guard_whole() {
            return Err("a number beside the scratch list was written".into());
        }
        let of_second = |order: &AuctionOrder| Order {
            side: order.side,
            price: order.price,
            volume: order.volume,
        };
        let orders = self.orders[ORDERS_AROUND..end].iter();
        Ok(Kept {
            orders: orders.map(of_second).collect(),
            count,
            volumes: self.volumes.words().to_vec(),
        })
    }
}

/// `Err` says how the library parts from the second implementation or from the
/// request.
pub fn compare(call: &CurrentCall) -> Result<Current, String> {
    let mut guarded = Guarded::new(&call.kept);
    let gate = guarded.change(call.change, call.reference);
    let kept = guarded.whole()?;
    let (answer, theirs) = by_second(call);
    parted(
        [gate, numbers(answer)],
        [&kept, &theirs],
        "the second implementation",
    )?;
    let (numbers, wanted) = by_request(call);
    parted([gate, numbers], [&kept, &wanted], "request 6 on the list")?;
    Ok(Current { answer, kept })
}

fn by_second(call: &CurrentCall) -> (Answer, Kept) {
    let mut kept = call.kept.clone();
    let Kept {
        orders,
        count,
        volumes,
    } = &mut kept;
    let answer = match call.change {
        Change::Add(order) => current::add(orders, count, order, call.reference, volumes),
        Change::Take(place) => current::take(orders, count, place, call.reference, volumes),
    };
    (answer, kept)
}

/// "answer and scratch are request 6's, worked out afresh from the list", by the
/// linked function; "places past the count are zero afterwards"; "a refusal leaves
/// list, count and scratch equal".
fn by_request(call: &CurrentCall) -> (AuctionNumbers, Kept) {
    if let Some(number) = call.refusal() {
        return (numbers(Answer::Refused(number)), call.kept.clone());
    }
    let mut held = call.kept.held().to_vec();
    call.applied(&mut held);
    let count = held.len();
    let listed: Vec<AuctionOrder> = held.iter().map(of_library).collect();
    let mut volumes = vec![u64::MAX; call.kept.volumes.len()];
    let numbers = library::auction_volumes(&listed, call.reference, &mut volumes);
    held.resize(call.kept.orders.len(), ZERO);
    let kept = Kept {
        orders: held,
        count,
        volumes,
    };
    (numbers, kept)
}

/// How the gate, first, parts from another.
fn parted(answers: [AuctionNumbers; 2], kept: [&Kept; 2], other: &str) -> Result<(), String> {
    let unlike = unlike(kept, ["the gate", other]);
    let [gate, given] = answers;
    let [gate_words, given_words] = answers.map(words_of);
    if gate != given {
        let words = unlike.unwrap_or("list, count and scratch list are alike".into());
        return Err(format!(
            "the gate says {gate_words}, {other} {given_words}; {words}"
        ));
    }
    unlike.map_or(Ok(()), |unlike| {
        Err(format!("both say {gate_words}; {unlike}"))
    })
}

/// Where two are not alike, and what each has there.
pub fn unlike([one, other]: [&Kept; 2], names: [&str; 2]) -> Option<String> {
    let says = |what: String, values: [&dyn fmt::Debug; 2]| {
        let ([first, second], [one, other]) = (names, values);
        format!("{what} is {one:?} by {first} and {other:?} by {second}")
    };
    if one.count != other.count {
        return Some(says("the count".into(), [&one.count, &other.count]));
    }
    if let Some(place) = first_unlike(&one.orders, &other.orders) {
        let what = format!("place {place} of the list");
        return Some(says(what, [&one.orders[place], &other.orders[place]]));
    }
    let place = first_unlike(&one.volumes, &other.volumes)?;
    let what = format!("place {place} of the scratch list");
    Some(says(what, [&one.volumes[place], &other.volumes[place]]))
}

#[cfg(test)]
mod tests {
    use super::*;
    use crate::auctions::{ATO, buy, price, sell};
    use crate::random::Random;

    fn call(change: Change) -> CurrentCall {
        let held = [buy(50_00, 100), sell(ATO, 50), sell(50_00, 150)];
        CurrentCall {
            kept: Kept::new(&mut Random::new(1), &held, 5, 1_025),
            change,
            reference: 0,
        }
    }

    #[test]
    fn alike() {
        let added = compare(&call(Change::Add(buy(50_25, 20)))).unwrap();
        assert_eq!(added.answer, price(50_00, 120));
        assert_eq!(added.kept.count, 4);
        assert_eq!(added.kept.orders[3..], [buy(50_25, 20), ZERO]);
        assert_eq!(added.kept.volumes[..5], [120, 0, 120, 20, 0]);
        let taken = compare(&call(Change::Take(1))).unwrap();
        assert_eq!(taken.answer, price(50_00, 100));
        assert_eq!(taken.kept.held(), [buy(50_00, 100), sell(50_00, 150)]);
        assert_eq!(taken.kept.past(), [ZERO; 3]);
        assert_eq!(taken.kept.volumes[..3], [100, 100, 0]);
    }

    #[test]
    fn a_refusal() {
        for (change, number) in [
            (Change::Add(buy(50_01, 1)), 15),
            (Change::Take(3), 16),
            (Change::Take(usize::MAX), 16),
        ] {
            let call = call(change);
            let left = compare(&call).unwrap();
            assert_eq!(left.answer, Answer::Refused(number));
            assert_eq!(left.kept, call.kept);
        }
    }

    #[test]
    fn what_parts_two() {
        let (numbers, kept) = by_request(&call(Change::Take(0)));
        let parted = |change: fn(&mut AuctionNumbers, &mut Kept)| {
            let (mut given, mut left) = (numbers, kept.clone());
            change(&mut given, &mut left);
            parted([given, numbers], [&left, &kept], "another")
        };
        assert_eq!(parted(|_, _| {}), Ok(()));
        type Edit = fn(&mut AuctionNumbers, &mut Kept);
        let edits: [(Edit, &str); 4] = [
            (
                |given, _| given.refusal = 16,
                "the gate says refused 16, another none; list, count and scratch list are alike",
            ),
            (
                |_, left| left.count = 3,
                "both say none; the count is 3 by the gate and 2 by another",
            ),
            (
                |_, left| left.orders[4].volume = 7,
                "both say none; place 4 of the list is Order { side: 0, price: 0, volume: 7 } by \
                 the gate and Order { side: 0, price: 0, volume: 0 } by another",
            ),
            (
                |_, left| left.volumes[1_024] = 7,
                "both say none; place 1024 of the scratch list is 7 by the gate and 0 by another",
            ),
        ];
        for (edit, message) in edits {
            assert_eq!(parted(edit), Err(message.into()));
        }
    }

    #[test]
    fn what_is_written_beside() {
        let written = |change: fn(&mut Guarded)| {
            let mut guarded = Guarded::new(&call(Change::Take(0)).kept);
            change(&mut guarded);
            guarded.whole().unwrap_err()
        };
        let last = |guarded: &mut Guarded| guarded.orders[ORDERS_AROUND + 5].price = 0;
        assert_eq!(written(last), "an order behind the list was written");
        let first = |guarded: &mut Guarded| guarded.orders[ORDERS_AROUND - 1].side = 0;
        assert_eq!(written(first), "an order ahead of the list was written");
        let count = |guarded: &mut Guarded| guarded.count[2] = 0;
        assert_eq!(written(count), "a number beside the count was written");
    }
}
