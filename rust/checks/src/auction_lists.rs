//! The lists of an auction (paper 02, requests 5 and 6): every length of each,
//! every sort of bad order at every place, the last numbers that are not bad, and
//! the largest sums. Each case says its answer.

use second::auction::{Answer, Order};
use second::ladder::LAST_PRICE;
use second::state::MAX_VOLUME;

use crate::auction_call::Call;
use crate::auction_outcome::Answers;
use crate::auctions::{ATO, POSITIONS, buy, expect, one, price, says, sell};
use crate::prices::{between, step};
use crate::program::Program;
use crate::random::Random;

const LENGTHS: [usize; 7] = [0, 1, 1_023, 1_024, 1_025, 1_026, 5_000];
const PLACES: [usize; 5] = [0, 1_023, 1_024, 1_025, 2_000];

pub fn run(program: &mut Program, random: &mut Random) {
    lengths(program, random);
    bad_orders(program, random);
    good_edges(program, random);
    largest_sums(program, random);
}

/// A list of this length, and one place in it that is not as the others.
fn list_with(length: usize, filler: Order, place: usize, order: Order) -> Vec<Order> {
    let mut orders = vec![filler; length];
    if let Some(entry) = orders.get_mut(place) {
        *entry = order;
    }
    orders
}

/// Every length of each list beside every length of the others; also where the
/// last order is bad, and where none is a limit.
fn lengths(program: &mut Program, random: &mut Random) {
    for length in LENGTHS {
        let last = length.saturating_sub(1);
        let crossing = list_with(length, buy(50_00, 100), 0, sell(50_00, 700));
        let given = match last {
            0 => Answer::None,
            _ => price(50_00, 700.min(100 * last as u64)),
        };
        let bad_at_last = list_with(length, buy(50_00, 100), last, sell(50_01, 100));
        let turned_away = match length {
            0 => Answer::None,
            _ => Answer::Refused(15),
        };
        let without_limit = list_with(length, sell(ATO, 100), last, buy(ATO, 100));
        for (orders, answer) in [
            (crossing, given),
            (bad_at_last, turned_away),
            (without_limit, Answer::None),
        ] {
            for places in triples(PLACES) {
                let of = |places: &[usize]| {
                    let is_14 = length > 1_024 || places.iter().any(|&places| places < 1_024);
                    if is_14 { Answer::Refused(14) } else { answer }
                };
                let expected = Answers {
                    with_two: of(&places[..2]),
                    with_one: of(&places[2..]),
                };
                let call = Call::new(random, &orders, 0, places);
                let name = format!("{length} orders, {places:?} places");
                says(program, &name, &call, expected);
            }
        }
    }
}

/// Each beside each.
fn triples<const N: usize>(numbers: [usize; N]) -> impl Iterator<Item = [usize; 3]> {
    let pairs = move |one| numbers.map(move |other| [one, other]);
    let beside = move |[one, other]: [usize; 2]| numbers.map(move |third| [one, other, third]);
    numbers.into_iter().flat_map(pairs).flat_map(beside)
}

/// Every sort: a wrong side, price or volume, in a limit and in an ATO.
pub fn bad() -> Vec<Order> {
    let mut prices = vec![
        LAST_PRICE - 1,
        LAST_PRICE + 1,
        LAST_PRICE + 2_00,
        1 << 31,
        u32::MAX,
    ];
    prices.extend(POSITIONS.into_iter().flat_map(between));
    let mut bad: Vec<Order> = prices.into_iter().map(|price| buy(price, 100)).collect();
    for price in [50_00, ATO] {
        for side in [2, 3, 256, 1 << 31, u32::MAX] {
            bad.push(Order {
                side,
                price,
                volume: 100,
            });
        }
        for volume in [0, MAX_VOLUME + 1, 1 << 31, u32::MAX] {
            bad.extend([buy(price, volume), sell(price, volume)]);
        }
    }
    // All three at once.
    bad.push(Order {
        side: 2,
        price: 50_01,
        volume: 0,
    });
    bad
}

fn bad_orders(program: &mut Program, random: &mut Random) {
    for bad in bad() {
        for filler in [sell(50_00, 100), sell(ATO, 100)] {
            for length in [1, 2, 3, 50, 1_024] {
                for place in [0, length / 2, length - 1] {
                    let orders = list_with(length, filler, place, bad);
                    let name = format!("{bad:?} at {place} of {length}");
                    one(program, random, &name, &orders, 50_00, Answer::Refused(15));
                }
            }
            // 14 comes first.
            let orders = list_with(3, filler, 1, bad);
            for places in [[1_023, 1_024, 1_023], [1_024, 1_023, 1_023], [0; 3]] {
                let call = Call::new(random, &orders, 50_00, places);
                let name = format!("{bad:?}, {places:?} places");
                says(program, &name, &call, Answer::Refused(14));
            }
            let orders = list_with(1_025, filler, 512, bad);
            let name = format!("{bad:?} in 1025 orders");
            one(program, random, &name, &orders, 50_00, Answer::Refused(14));
        }
    }
    // Several bad ones.
    let orders = bad();
    let name = "nothing but bad orders";
    one(program, random, name, &orders, 0, Answer::Refused(15));
}

/// The last numbers that are not refused.
fn good_edges(program: &mut Program, random: &mut Random) {
    for volume in [1, 2, MAX_VOLUME - 1, MAX_VOLUME] {
        let mut prices = vec![1, 2, LAST_PRICE - 2_00, LAST_PRICE];
        prices.extend(POSITIONS.map(|position| step(position, 0)));
        for given in prices {
            let expected = price(given, volume.into());
            for orders in [
                [buy(given, volume), sell(given, volume)],
                [buy(ATO, volume), sell(given, volume)],
                [buy(given, volume), sell(ATO, volume)],
            ] {
                let name = format!("{volume} at {given}");
                for reference in [0, 1, given - 1, given, given + 1, u32::MAX] {
                    expect(program, random, &name, &orders, reference, expected);
                }
            }
        }
    }
}

/// The most shares that a list can hold, so many of its orders on one side. 215
/// orders pass 32 bits.
fn largest_sums(program: &mut Program, random: &mut Random) {
    for count in [1, 2, 214, 215, 216, 429, 430, 511, 512, 513, 1_022, 1_023] {
        let other = 1_024 - count;
        let name = format!("{count} and {other} orders of 20,000,000");
        let volume = u64::from(MAX_VOLUME) * count.min(other) as u64;
        for (bid, offer) in [(50_00, 50_00), (LAST_PRICE, 1), (50_00, ATO), (ATO, 50_00)] {
            let mut orders = vec![buy(bid, MAX_VOLUME); count];
            orders.resize(1_024, sell(offer, MAX_VOLUME));
            for (reference, given) in [(0, bid.min(offer)), (u32::MAX, bid.max(offer))] {
                // An ATO has no price to give.
                let given = if given == ATO { 50_00 } else { given };
                let expected = price(given, volume);
                one(program, random, &name, &orders, reference, expected);
                orders.reverse();
                one(program, random, &name, &orders, reference, expected);
            }
        }
        let orders = list_with(1_024, buy(50_00, MAX_VOLUME), count, sell(ATO, MAX_VOLUME));
        let expected = price(50_00, MAX_VOLUME.into());
        expect(program, random, &name, &orders, 0, expected);
    }
}
