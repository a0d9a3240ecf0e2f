//! A list kept current (paper 02, request 7): the books of requests 5 and 6 with
//! their last order added and with one more taken out, every length of both lists
//! beside every count and place, and every sort of bad order.

use std::fmt;

use second::auction::Order;

use crate::auction_lists::bad;
use crate::auction_volumes::{Book, books};
use crate::auctions::{ATO, buy, nearest, price, references, sell};
use crate::current_call::{Change, CurrentCall, Kept};
use crate::current_history::{History, there_and_back};
use crate::prices::step;
use crate::program::Program;
use crate::random::Random;
use crate::report::first_wrong;

pub const LENGTHS: [usize; 7] = [0, 1, 5, 1_023, 1_024, 1_025, 1_100];
const SCRATCH: [usize; 4] = [0, 1_023, 1_024, 1_030];

/// Of which the low 32 bits are 0.
pub const HIGH: usize = usize::MAX - u32::MAX as usize;

pub fn run(program: &mut Program) {
    let mut random = program.random();
    for book in books() {
        with_the_last(program, &mut random, &book);
        without_one_more(program, &mut random, &book);
    }
    for length in LENGTHS {
        counts(program, &mut random, length);
    }
    for bad in bad() {
        bad_order(program, &mut random, bad);
    }
    tied(program, &mut random);
    full(program, &mut random);
    come_and_go(program, &mut random);
}

/// So many orders of which most are of different prices.
fn orders(length: usize) -> Vec<Order> {
    let order = |place: u32| match place % 8 {
        7 => sell(ATO, 1 + place),
        side => Order {
            side: side % 2,
            price: step(600, (place * 7 % 211) as i32),
            volume: 1 + place,
        },
    };
    (0..length as u32).map(order).collect()
}

/// The answer and every number of the scratch list that a book has.
fn gives(program: &mut Program, name: fmt::Arguments, call: &CurrentCall, book: &Book) {
    let Some(left) = program.current(name, call) else {
        return;
    };
    let list = book.list(left.kept.volumes.len());
    program.holds(
        format_args!("{name}, the book"),
        left.answer == book.answer && left.kept.volumes == list && left.kept.held() == book.orders,
        || {
            let (answer, expected) = (left.answer, book.answer);
            let said = format!("both say {answer}, the book says {expected}\n");
            let wrong = first_wrong(&left.kept.volumes, &list, |place| format!("place {place}"));
            call.describe() + &said + &wrong
        },
    );
    there_and_back(program, name, &left, buy(50_00, 100), call.reference);
}

/// Lists that are full with so many orders, and others, each with a scratch list.
fn lengths(orders: usize) -> impl Iterator<Item = [usize; 2]> {
    let lengths = [
        [orders, 1_024],
        [orders + 1, 1_030],
        [1_024, 1_030],
        [1_100, 1_024],
    ];
    lengths
        .into_iter()
        .filter(move |&[length, _]| length >= orders)
}

fn with_the_last(program: &mut Program, random: &mut Random, book: &Book) {
    let Some((&last, held)) = book.orders.split_last() else {
        return;
    };
    for [length, places] in lengths(book.orders.len()) {
        let call = CurrentCall {
            kept: Kept::new(random, held, length, places),
            change: Change::Add(last),
            reference: 0,
        };
        let name = format_args!("{}, its last order into {length} places", book.name);
        gives(program, name, &call, book);
    }
}

fn without_one_more(program: &mut Program, random: &mut Random, book: &Book) {
    let count = book.orders.len();
    if count == 1_024 {
        return;
    }
    for [length, places] in lengths(count + 1) {
        for place in [0, count / 2, count] {
            let mut held = book.orders.clone();
            held.insert(place, sell(49_00, 70));
            let call = CurrentCall {
                kept: Kept::new(random, &held, length, places),
                change: Change::Take(place),
                reference: 0,
            };
            let name = format_args!("{}, one more at {place} of {length} places", book.name);
            gives(program, name, &call, book);
        }
    }
}

/// Around the list's length, around 1,024, and the largest there are.
fn around(length: usize) -> Vec<usize> {
    let edges = [0, length, 1_024];
    let mut counts: Vec<usize> = edges
        .into_iter()
        .flat_map(|edge| [edge.saturating_sub(1), edge, edge + 1])
        .chain([HIGH, HIGH + 1, usize::MAX])
        .collect();
    counts.sort_unstable();
    counts.dedup();
    counts
}

/// A list of good orders, and the same with a bad one, lent with every count beside
/// every scratch list: several causes of a refusal come at once.
fn counts(program: &mut Program, random: &mut Random, length: usize) {
    let good = orders(length);
    for count in around(length) {
        let last = count.min(length).saturating_sub(1);
        for places in SCRATCH {
            for spoilt in [None, Some(0), Some(last)] {
                let mut kept = Kept::new(random, &good, length, places);
                kept.count = count;
                if let Some(order) = spoilt.and_then(|place| kept.orders.get_mut(place)) {
                    order.volume = 0;
                }
                let adds = [buy(50_00, 100), buy(50_01, 100)].map(Change::Add);
                let takes = [0, last / 2, last, count, count.saturating_add(1)];
                let takes = takes.into_iter().chain([HIGH, usize::MAX]);
                for change in adds.into_iter().chain(takes.map(Change::Take)) {
                    let call = CurrentCall {
                        kept: kept.clone(),
                        change,
                        reference: 40_00,
                    };
                    let name = format_args!("count {count} of {length}");
                    program.current(name, &call);
                }
            }
        }
    }
}

/// As the new one, as a held one, and past the count, where it is never asked.
fn bad_order(program: &mut Program, random: &mut Random, bad: Order) {
    let good = orders(3);
    let mut call = |held: &[Order], past: Option<usize>, change| {
        let mut kept = Kept::new(random, held, 6, 1_024);
        if let Some(place) = past {
            kept.orders[place] = bad;
        }
        let call = CurrentCall {
            kept,
            change,
            reference: 40_00,
        };
        program.current(format_args!("{bad:?}"), &call);
    };
    let add = Change::Add(good[0]);
    let takes = [0, 1, 2, 3, 5, 6].map(Change::Take);
    call(&good, None, Change::Add(bad));
    for place in 0..3 {
        let mut held = good.clone();
        held[place] = bad;
        for change in [add, Change::Add(bad)].into_iter().chain(takes) {
            call(&held, None, change);
        }
    }
    call(&[bad; 3], None, Change::Take(1));
    for place in 3..6 {
        for change in [add, Change::Add(bad)].into_iter().chain(takes) {
            call(&good, Some(place), change);
        }
    }
}

/// Two candidates that each call's own reference chooses from.
fn tied(program: &mut Program, random: &mut Random) {
    let [low, high] = [49_75, 50_25];
    let held = [buy(high, 100), sell(low, 100)];
    for reference in references(&[low, high]) {
        let expected = price(nearest(reference, &[low, high]), 100);
        let add = (&held[..1], Change::Add(held[1]));
        let take = (&[held[0], held[1], sell(high, 7)][..], Change::Take(2));
        for (held, change) in [add, take] {
            let call = CurrentCall {
                kept: Kept::new(random, held, 5, 1_024),
                change,
                reference,
            };
            let name = format_args!("tied, reference {reference}");
            let Some(left) = program.current(name, &call) else {
                return;
            };
            program.holds(name, left.answer == expected, || {
                let answer = left.answer;
                call.describe() + &format!("both say {answer}; the case says {expected}")
            });
        }
    }
}

/// Up to the last place that there is, one order further, and down again.
fn full(program: &mut Program, random: &mut Random) {
    for length in [1_023, 1_024, 1_025, 1_100] {
        let mut history = History::new(Kept::new(random, &orders(1_020), length, 1_024));
        let name = format_args!("up to {length} places");
        for volume in 1..=6 {
            history.change(program, name, Change::Add(buy(45_00, volume)), 40_00);
        }
        let name = format_args!("down from {length} places");
        for place in [1_019, 0, 512, 7, 1_020, 1_018] {
            history.change(program, name, Change::Take(place), 40_00);
        }
        history.end(program, name);
    }
}

/// From nothing to a few orders and back to nothing, out of the first place, of the
/// last, and of those in the middle.
fn come_and_go(program: &mut Program, random: &mut Random) {
    const ORDERS: usize = 24;
    for length in [ORDERS, ORDERS + 1, 1_024, 1_100] {
        for out_of in [|_| 0, |count| count - 1, |count: usize| count / 2] {
            let name = format_args!("come and go in {length} places");
            let mut history = History::new(Kept::new(random, &[], length, 1_024));
            for order in orders(ORDERS) {
                let left = history.change(program, name, Change::Add(order), 40_00);
                if let Some(left) = left {
                    there_and_back(program, name, &left, sell(37_00, 5), 40_00);
                }
            }
            for count in (0..=ORDERS).rev() {
                // Out of an empty list too.
                let place = if count == 0 { 0 } else { out_of(count) };
                let left = history.change(program, name, Change::Take(place), 40_00);
                if let Some(left) = left {
                    there_and_back(program, name, &left, sell(37_00, 5), 40_00);
                }
            }
            history.end(program, name);
        }
    }
}
