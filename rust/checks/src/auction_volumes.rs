//! What the one scratch list of an auction holds afterwards (paper 02, request 6).
//! Each case says every number of it, to the last one that was lent.

use std::fmt;

use second::auction::{Answer, Order, SCRATCH_PLACES};
use second::state::MAX_VOLUME;

use crate::auction_call::Call;
use crate::auctions::{ATO, OF_002, OF_003, buy, price, sell};
use crate::prices::step;
use crate::program::Program;
use crate::random::Random;
use crate::report::first_wrong;

const SHORT: [usize; 3] = [0, 1, 1_023];
const LONG: [usize; 5] = [1_024, 1_025, 1_100, 2_000, 70_000];

pub fn run(program: &mut Program, random: &mut Random) {
    for book in books() {
        held(program, random, &book);
        equal_after_a_refusal(program, random, &book);
    }
    one_order_too_many(program, random);
    lent_again(program, random);
}

/// Orders, the answer to them, and the volume at the place of each.
pub struct Book {
    pub name: &'static str,
    pub orders: Vec<Order>,
    pub answer: Answer,
    volumes: Vec<u64>,
}

impl Book {
    fn new(name: &'static str, orders: &[Order], answer: Answer, volumes: &[u64]) -> Self {
        Book {
            name,
            orders: orders.to_vec(),
            answer,
            volumes: volumes.to_vec(),
        }
    }

    /// "0 elsewhere": behind the last order, to the end of the lent list.
    pub fn list(&self, places: usize) -> Vec<u64> {
        let mut list = self.volumes.clone();
        list.resize(places, 0);
        list
    }
}

pub fn books() -> Vec<Book> {
    let of_002 = [
        0, 3_300, 3_300, 3_500, 3_500, 0, 0, 3_500, 3_500, 3_300, 1_000, 1_000, 1_000,
    ];
    let of_003 = [900, 600, 900, 0, 0];
    let one_price = [buy(50_00, 100), sell(50_00, 30), sell(50_00, 40)];
    let around = [buy(ATO, 5), sell(50_00, 3), buy(50_00, 1), sell(ATO, 2)];
    let apart = [sell(50_25, 100), buy(50_00, 100)];
    vec![
        Book::new("document 002", &OF_002, price(102_00, 3_500), &of_002),
        Book::new("document 003", &OF_003, price(49_00, 900), &of_003),
        Book::new("no order", &[], Answer::None, &[]),
        Book::new("one ATO", &[buy(ATO, 100)], Answer::None, &[0]),
        Book::new("no crossing", &apart, Answer::None, &[0, 0]),
        Book::new("one price", &one_price, price(50_00, 70), &[70; 3]),
        Book::new("ATO around", &around, price(50_00, 5), &[0, 5, 5, 0]),
        all_but_one(),
        all_to_an_ato(),
        all_prices(),
    ]
}

/// Place 1,023 is behind the orders.
fn all_but_one() -> Book {
    let mut orders = vec![buy(50_00, 2); 1_023];
    orders[1_022] = sell(50_00, 3_000);
    let volumes = [2_044; 1_023];
    Book::new("1,023 orders", &orders, price(50_00, 2_044), &volumes)
}

/// Place 1,023 is an ATO's. The sums pass 32 bits.
fn all_to_an_ato() -> Book {
    let orders = [[buy(50_00, MAX_VOLUME); 512], [sell(ATO, MAX_VOLUME); 512]].concat();
    let volume = 512 * u64::from(MAX_VOLUME);
    let volumes = [[volume; 512], [0; 512]].concat();
    Book::new("1,024 orders", &orders, price(50_00, volume), &volumes)
}

/// Place 1,023 is a limit's. Buyers are from the middle up and sellers down, so
/// that the volume falls from price to price on both sides.
fn all_prices() -> Book {
    let nth = |place: u32| step(700 + place, 0);
    let buyers = (0..512).map(|place| (buy(nth(512 + place), 100), 512 - place));
    let sellers = (0..512).map(|place| (sell(nth(place), 100), 1 + place));
    let limits = buyers.chain(sellers);
    let (orders, volumes): (Vec<Order>, Vec<u64>) = limits
        .map(|(order, orders)| (order, 100 * u64::from(orders)))
        .unzip();
    // Of the two in the middle the one nearer to reference 0.
    Book::new("1,024 prices", &orders, price(nth(511), 51_200), &volumes)
}

/// The call, with one list of so many random numbers.
fn call(random: &mut Random, orders: &[Order], places: usize) -> Call {
    Call::new(random, orders, 0, [SCRATCH_PLACES, SCRATCH_PLACES, places])
}

/// The answer with one list, and all that it then holds.
fn leaves(program: &mut Program, name: fmt::Arguments, call: &Call, answer: Answer, list: &[u64]) {
    let Some(outcome) = program.auction(name, call) else {
        return;
    };
    let given = outcome.volumes.answer;
    let [left] = &outcome.volumes.scratch;
    program.holds(
        format_args!("{name}, the list"),
        given == answer && left == list,
        || {
            let wrong = first_wrong(left, list, |place| format!("place {place}"));
            let said = format!("both say {given}, the case says {answer}\n");
            call.describe() + &said + &wrong
        },
    );
}

/// The answer of a refusal, which leaves the list equal.
fn refused(program: &mut Program, name: fmt::Arguments, call: &Call, number: u8) {
    leaves(program, name, call, Answer::Refused(number), &call.volumes);
}

fn held(program: &mut Program, random: &mut Random, book: &Book) {
    for places in LONG {
        let call = call(random, &book.orders, places);
        let name = format_args!("{}, {places} numbers", book.name);
        leaves(program, name, &call, book.answer, &book.list(places));
    }
}

fn equal_after_a_refusal(program: &mut Program, random: &mut Random, book: &Book) {
    let name = book.name;
    for places in SHORT {
        let call = call(random, &book.orders, places);
        refused(program, format_args!("{name}, {places} numbers"), &call, 14);
    }
    let last = book.orders.len().saturating_sub(1);
    for place in [0, last] {
        let mut orders = book.orders.clone();
        let Some(order) = orders.get_mut(place) else {
            continue;
        };
        order.volume = 0;
        // 14 comes first.
        let refusals = SHORT.map(|places| (places, 14)).into_iter();
        for (places, number) in refusals.chain(LONG.map(|places| (places, 15))) {
            let call = call(random, &orders, places);
            let name = format_args!("{name}, order {place} without volume, {places} numbers");
            refused(program, name, &call, number);
        }
    }
}

/// 1,024 of them are held above.
fn one_order_too_many(program: &mut Program, random: &mut Random) {
    let orders = all_prices().orders;
    for last in [sell(50_00, 100), sell(ATO, 100), sell(50_00, 0)] {
        let orders = [&orders[..], &[last]].concat();
        for places in [1_023, 1_024, 1_025, 2_000] {
            let call = call(random, &orders, places);
            let name = format_args!("1,025 orders, the last {last:?}, {places} numbers");
            refused(program, name, &call, 14);
        }
    }
}

/// One list for a call after another: no number is left of a call with more orders,
/// and the next one's is as if the list were new.
fn lent_again(program: &mut Program, random: &mut Random) {
    for places in [1_024, 1_025] {
        let mut list = call(random, &[], places).volumes;
        for book in books() {
            for book in [all_prices(), book] {
                let name = format_args!("{}, after other orders, {places} numbers", book.name);
                let call = Call {
                    volumes: list,
                    ..call(random, &book.orders, places)
                };
                list = book.list(places);
                leaves(program, name, &call, book.answer, &list);
            }
        }
    }
}
