//! Random histories of a list kept current (paper 02, request 7): orders come and go
//! in books of every shape, in lists of every length, and now and then a call is lent
//! what was damaged, in several ways at once.

use second::auction::{MAX_ORDERS, Order, SCRATCH_PLACES};

use crate::auction_books::{Shape, reference, spoilt};
use crate::auction_current::{HIGH, LENGTHS};
use crate::current_call::{Change, CurrentCall, Kept};
use crate::current_history::{History, there_and_back};
use crate::program::Program;
use crate::random::Random;

/// So many histories are drawn in a round.
const HISTORIES: usize = 40;

pub fn run(program: &mut Program) {
    let mut random = program.random();
    for _ in 0..HISTORIES {
        history(program, &mut random);
    }
}

/// With how many orders a list begins, and how many calls follow.
fn begin(random: &mut Random) -> (usize, usize) {
    match random.below(32) {
        // A call with so many orders takes as long as many with few.
        0 | 1 => (1_019 + random.place(6), 12),
        2..=5 => (random.place(129), 20),
        6..=16 => (0, 30),
        _ => (random.place(17), 30),
    }
}

fn history(program: &mut Program, random: &mut Random) {
    let shape = Shape::draw(random);
    let (held, calls) = begin(random);
    let held: Vec<Order> = (0..held).map(|_| shape.order(random)).collect();
    let length = length(random, held.len());
    let mut history = History::new(Kept::new(random, &held, length, SCRATCH_PLACES));
    for number in 0..calls {
        let change = change(random, &shape, history.kept.count);
        let mut call = CurrentCall {
            kept: history.kept.clone(),
            change,
            reference: reference(random, history.kept.held()),
        };
        while random.once_in(3) {
            damage(random, &shape, &mut call);
        }
        let name = format_args!("call {number} in {length} places, {shape:?}");
        let Some(left) = history.make(program, name, &call) else {
            return;
        };
        if random.once_in(4) {
            let order = shape.order(random);
            there_and_back(program, name, &left, order, call.reference);
        }
    }
    let name = format_args!("{calls} calls in {length} places, {shape:?}");
    history.end(program, name);
}

/// Of a list that holds so many orders: full, with room for a few, or one of those
/// on each side of 1,024.
fn length(random: &mut Random, held: usize) -> usize {
    let length = match random.below(8) {
        0 => held,
        1..=3 => held + random.place(9),
        _ => random.pick(&LENGTHS),
    };
    length.max(held)
}

fn change(random: &mut Random, shape: &Shape, count: usize) -> Change {
    if random.below(5) < 3 {
        let order = shape.order(random);
        return Change::Add(match random.below(12) {
            0 => spoilt(random, order),
            _ => order,
        });
    }
    Change::Take(match random.below(16) {
        0 => count,
        1 => count + 1 + random.place(40),
        2 => random.pick(&[usize::MAX, HIGH, HIGH + count / 2]),
        _ if count == 0 => 0,
        3 | 4 => 0,
        5 | 6 => count - 1,
        _ => random.place(count),
    })
}

/// One thing that the call must turn away, or must not look at. The list itself goes
/// on without it where the call is refused.
fn damage(random: &mut Random, shape: &Shape, call: &mut CurrentCall) {
    let kept = &mut call.kept;
    let held = kept.held().len();
    match random.below(10) {
        0 | 1 => kept.litter(random),
        // These would do, if they were held.
        2 => kept.orders[held..].fill_with(|| shape.order(random)),
        3..=5 if held > 0 => {
            let place = random.place(held);
            let place = random.pick(&[0, place, held - 1]);
            kept.orders[place] = spoilt(random, kept.orders[place]);
        }
        6 => {
            if let Change::Take(place) = call.change
                && place < held
            {
                kept.orders[place] = spoilt(random, kept.orders[place]);
            }
        }
        7 | 8 => {
            if random.once_in(2) {
                kept.orders[held..].fill_with(|| shape.order(random));
            }
            kept.count = wrong_count(random, kept.orders.len());
        }
        _ => {
            let places = random.pick(&[0, 1, 1_023, 1_024, 1_025, 1_030, 2_000]);
            kept.volumes = (0..places).map(|_| random.next()).collect();
        }
    }
}

/// Above the list's length or above 1,024.
fn wrong_count(random: &mut Random, length: usize) -> usize {
    match random.below(4) {
        0 => random.pick(&[usize::MAX, HIGH, HIGH + length / 2]),
        1 | 2 if length > MAX_ORDERS => MAX_ORDERS + 1 + random.place(length - MAX_ORDERS),
        1 => MAX_ORDERS + 1,
        2 => length + 1 + random.place(80),
        _ => length + 1,
    }
}
