//! The price an auction would give (paper 02, requests 5 and 6): the books of the
//! source documents, ties at each of the four steps, references on both sides of
//! each candidate, and lists without a price. Each case says its answer.

use second::auction::{Answer, Order};
use second::ladder;

use crate::auction_call::Call;
use crate::auction_lists;
use crate::auction_outcome::Answers;
use crate::auction_volumes;
use crate::prices::step;
use crate::program::Program;
use crate::random::Random;

pub const ATO: u32 = 0;

/// In every band of the ladder, beside its first price and at both ends.
pub const POSITIONS: [u32; 17] = [
    1, 50, 197, 200, 347, 350, 447, 450, 597, 600, 897, 900, 1_097, 1_100, 1_300, 2_000, 51_090,
];

/// The books of source documents 002 and 003.
pub const OF_002: [Order; 13] = [
    buy(ATO, 1_000),
    buy(103_00, 1_000),
    buy(103_00, 1_300),
    buy(102_00, 500),
    buy(102_00, 1_100),
    buy(101_00, 800),
    buy(101_00, 300),
    sell(102_00, 2_500),
    sell(102_00, 1_000),
    sell(103_00, 500),
    sell(104_00, 1_000),
    sell(105_00, 1_500),
    sell(106_00, 500),
];
pub const OF_003: [Order; 5] = [
    buy(49_00, 900),
    buy(48_00, 300),
    sell(49_00, 400),
    sell(52_00, 4_400),
    sell(ATO, 600),
];

/// How often a list is shuffled.
const SHUFFLES: usize = 3;

pub fn run(program: &mut Program) {
    let mut random = program.random();
    documents(program, &mut random);
    for position in POSITIONS {
        for away in [1, 2, 7] {
            let [low, high] = [step(position, 0), step(position, away)];
            ties(program, &mut random, low, high);
        }
        four_tied(program, &mut random, position);
        no_price(program, &mut random, position);
        different_prices(program, &mut random, position);
    }
    auction_lists::run(program, &mut random);
    auction_volumes::run(program, &mut random);
}

pub const fn buy(price: u32, volume: u32) -> Order {
    Order {
        side: 0,
        price,
        volume,
    }
}

pub const fn sell(price: u32, volume: u32) -> Order {
    Order {
        side: 1,
        price,
        volume,
    }
}

pub fn price(price: u32, volume: u64) -> Answer {
    Answer::Price { price, volume }
}

/// The answer to a list in its order, in the reverse and in others.
pub fn expect(
    program: &mut Program,
    random: &mut Random,
    name: &str,
    orders: &[Order],
    reference: u32,
    expected: Answer,
) {
    let mut orders = orders.to_vec();
    one(program, random, name, &orders, reference, expected);
    orders.reverse();
    one(program, random, name, &orders, reference, expected);
    for _ in 0..SHUFFLES {
        random.shuffle(&mut orders);
        one(program, random, name, &orders, reference, expected);
    }
}

pub fn one(
    program: &mut Program,
    random: &mut Random,
    name: &str,
    orders: &[Order],
    reference: u32,
    expected: Answer,
) {
    let call = Call::plain(random, orders, reference);
    says(program, name, &call, expected);
}

pub fn says(program: &mut Program, name: &str, call: &Call, expected: impl Into<Answers>) {
    let Some(outcome) = program.auction(format_args!("{name}"), call) else {
        return;
    };
    let [answers, expected] = [outcome.answers(), expected.into()];
    program.holds(
        format_args!("{name}, the answer"),
        answers == expected,
        || call.describe() + &format!("both say {answers}; the case says {expected}"),
    );
}

fn documents(program: &mut Program, random: &mut Random) {
    for reference in [0, 1, 48_00, 49_00, 102_00, 106_00, u32::MAX] {
        let expected = price(102_00, 3_500);
        let name = "the book of document 002";
        expect(program, random, name, &OF_002, reference, expected);
        let expected = price(49_00, 900);
        let name = "the book of document 003";
        expect(program, random, name, &OF_003, reference, expected);
    }
}

/// Lists in which one of the first two steps decides, and lists in which both
/// leave two candidates, for the reference to choose from.
fn ties(program: &mut Program, random: &mut Random, low: u32, high: u32) {
    let mut book = |name: &str, orders: &[Order], reference, expected| {
        let name = format!("{name}, {low} and {high}");
        expect(program, random, &name, orders, reference, expected);
    };
    for reference in [0, 1, low, high, u32::MAX] {
        let orders = [buy(high, 200), sell(low, 100), sell(high, 150)];
        book("most volume", &orders, reference, price(high, 200));
        let orders = [sell(low, 200), buy(high, 100), buy(low, 150)];
        book("most volume", &orders, reference, price(low, 200));
        let orders = [buy(high, 201), sell(low, 200), sell(high, 1)];
        book("one share more", &orders, reference, price(high, 201));
        let orders = [buy(high, 100), buy(low, 50), sell(low, 100)];
        book("least difference", &orders, reference, price(high, 100));
        let orders = [sell(low, 100), sell(high, 50), buy(high, 100)];
        book("least difference", &orders, reference, price(low, 100));
        // Buyers are left at the low price and sellers at the high one.
        let orders = [buy(high, 100), buy(low, 30), sell(low, 100), sell(high, 31)];
        book("difference 30 and 31", &orders, reference, price(low, 100));
        let orders = [buy(high, 100), buy(low, 31), sell(low, 100), sell(high, 30)];
        book("difference 31 and 30", &orders, reference, price(high, 100));
    }
    let tied: [&[Order]; 4] = [
        &[buy(high, 100), sell(low, 100)],
        &[buy(high, 100), buy(low, 7), sell(low, 100), sell(high, 7)],
        &[buy(high, 60), sell(low, 60), buy(ATO, 40), sell(ATO, 40)],
        &[[buy(high, 1); 100], [sell(low, 1); 100]].concat(),
    ];
    for orders in tied {
        for reference in references(&[low, high]) {
            let expected = price(nearest(reference, &[low, high]), 100);
            book("tied", orders, reference, expected);
        }
    }
}

/// Four candidates that the first two steps leave. Where buyers are left and where
/// sellers are makes no difference: the request's has no sign.
fn four_tied(program: &mut Program, random: &mut Random, position: u32) {
    let prices = [0, 1, 2, 3].map(|away| step(position, away));
    let orders = [
        sell(prices[0], 100),
        buy(prices[1], 7),
        sell(prices[2], 7),
        buy(prices[3], 100),
    ];
    for reference in references(&prices) {
        let expected = price(nearest(reference, &prices), 100);
        let name = format!("four tied, {prices:?}");
        expect(program, random, &name, &orders, reference, expected);
    }
}

/// Around these prices, half way between any two, and at both ends.
pub fn references(prices: &[u32]) -> Vec<u32> {
    let pairs = prices
        .iter()
        .flat_map(|&one| prices.iter().map(move |&other| one.midpoint(other)));
    let around = pairs.chain([0, u32::MAX]).flat_map(|reference| {
        [
            reference.saturating_sub(1),
            reference,
            reference.saturating_add(1),
        ]
    });
    let mut references: Vec<u32> = around.collect();
    references.sort_unstable();
    references.dedup();
    references
}

/// The price nearest to a reference; of two the higher.
pub fn nearest(reference: u32, prices: &[u32]) -> u32 {
    let distance = |price: &u32| price.abs_diff(reference);
    let least = prices.iter().map(distance).min();
    let nearest = prices.iter().filter(|price| Some(distance(price)) == least);
    *nearest.max().expect("there is a price")
}

/// Lists without a candidate that has volume, and with the least that has one.
fn no_price(program: &mut Program, random: &mut Random, position: u32) {
    let [low, high] = [step(position, 0), step(position, 1)];
    let lists: [(&str, &[Order]); 8] = [
        ("no order", &[]),
        ("one ATO", &[buy(ATO, 1)]),
        ("ATO on both sides", &[buy(ATO, 100), sell(ATO, 100)]),
        ("one limit", &[sell(low, 100)]),
        ("only buyers", &[buy(ATO, 100), buy(low, 1), buy(high, 1)]),
        ("only sellers", &[sell(ATO, 1), sell(low, 1), sell(high, 1)]),
        ("no crossing", &[buy(low, 100), sell(high, 100)]),
        (
            "many ATO",
            &[[buy(ATO, 5); 300], [sell(ATO, 6); 300]].concat(),
        ),
    ];
    for (name, orders) in lists {
        for reference in [0, low, u32::MAX] {
            expect(program, random, name, orders, reference, Answer::None);
        }
    }
    let lists: [(&str, &[Order], u32, u64); 4] = [
        ("one at one price", &[buy(low, 1), sell(low, 1)], low, 1),
        (
            "ATO against a limit",
            &[sell(ATO, 9), buy(high, 2)],
            high,
            2,
        ),
        ("a limit against ATO", &[buy(ATO, 3), sell(low, 9)], low, 3),
        (
            "ATO on both sides at the only limit",
            &[buy(ATO, 100), sell(ATO, 90), buy(high, 5)],
            high,
            90,
        ),
    ];
    for (name, orders, given, volume) in lists {
        let expected = price(given, volume);
        for reference in [0, u32::MAX] {
            expect(program, random, name, orders, reference, expected);
        }
    }
}

/// Two full lists in which no price comes twice: one where all prices cross and
/// one where none do.
fn different_prices(program: &mut Program, random: &mut Random, position: u32) {
    let position = position.min(ladder::POSITIONS - 1_023);
    let prices: Vec<u32> = (0..1_024).map(|away| step(position, away)).collect();
    let (lower, upper) = prices.split_at(512);
    let list = |buyers: &[u32], sellers: &[u32]| {
        let buyers = buyers.iter().map(|&price| buy(price, 100));
        let sellers = sellers.iter().map(|&price| sell(price, 100));
        buyers.chain(sellers).collect::<Vec<Order>>()
    };
    let crossing = list(upper, lower);
    // At the highest seller's and the lowest buyer's price all sums are equal.
    let [low, high] = [lower[511], upper[0]];
    let any = random.pick(&prices);
    for reference in [0, any, u32::MAX] {
        let expected = price(nearest(reference, &[low, high]), 51_200);
        let name = "1,024 prices, all crossing";
        expect(program, random, name, &crossing, reference, expected);
    }
    let name = "1,024 prices, none crossing";
    let apart = list(lower, upper);
    expect(program, random, name, &apart, any, Answer::None);
}
