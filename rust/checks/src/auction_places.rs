//! Under what an auction's answer is counted: for a price, by which of the
//! request's four steps it was found.

use second::auction::{Answer, Sums};

use crate::auction_call::Call;
use crate::auction_comparison::Left;

const REFUSED_14: usize = 0;
const REFUSED_15: usize = 1;
const NO_LIMIT: usize = 2;
const NO_VOLUME: usize = 3;
const ONLY_CANDIDATE: usize = 4;
/// Two places for each of the first three steps: the candidate that it left
/// alone was the highest that it had to choose from, or another.
const BY_STEP: usize = 5;
const BY_LAST_STEP: usize = 11;
pub const AUCTION_PLACES: usize = 12;

pub const WORDS: [&str; AUCTION_PLACES] = [
    "refused 14",
    "refused 15",
    "none, no limit in the list",
    "none, no volume at any limit",
    "price, the only candidate",
    "price by volume, the highest",
    "price by volume, another",
    "price by difference, the highest",
    "price by difference, another",
    "price by distance, the highest",
    "price by distance, another",
    "price as the higher",
];

#[derive(Clone, Copy)]
struct Candidate {
    price: u32,
    sums: Sums,
}

/// The scratch lists hold the sums at each limit's price.
fn candidates(call: &Call, left: &Left<2>) -> Vec<Candidate> {
    let [buyers, sellers] = &left.scratch;
    let sums = buyers
        .iter()
        .zip(sellers)
        .map(|(&buyers, &sellers)| Sums { buyers, sellers });
    let limits = call.orders.iter().zip(sums);
    let mut candidates: Vec<Candidate> = limits
        .filter(|(order, _)| order.is_limit())
        .map(|(order, sums)| Candidate {
            price: order.price,
            sums,
        })
        .collect();
    candidates.sort_by_key(|candidate| candidate.price);
    candidates.dedup_by_key(|candidate| candidate.price);
    candidates
}

pub fn auction_place(call: &Call, left: &Left<2>) -> usize {
    match left.answer {
        Answer::Refused(14) => REFUSED_14,
        Answer::Refused(_) => REFUSED_15,
        Answer::None if candidates(call, left).is_empty() => NO_LIMIT,
        Answer::None => NO_VOLUME,
        Answer::Price { .. } => of_price(candidates(call, left), call.reference),
    }
}

fn of_price(candidates: Vec<Candidate>, reference: u32) -> usize {
    if candidates.len() == 1 {
        return ONLY_CANDIDATE;
    }
    // What a step wants least of; for volume, what is short of the most.
    let steps: [&dyn Fn(&Candidate) -> u64; 3] = [
        &|candidate| u64::MAX - candidate.sums.volume(),
        &|candidate| candidate.sums.difference(),
        &|candidate| candidate.price.abs_diff(reference).into(),
    ];
    // By their prices, the highest last.
    let mut left = candidates;
    for (number, step) in steps.into_iter().enumerate() {
        let highest = left[left.len() - 1].price;
        let least = left.iter().map(step).min();
        left.retain(|candidate| Some(step(candidate)) == least);
        if let [only] = left[..] {
            return BY_STEP + 2 * number + usize::from(only.price != highest);
        }
    }
    BY_LAST_STEP
}

#[cfg(test)]
mod tests {
    use second::auction::Order;

    use super::*;
    use crate::auction_outcome::compare;
    use crate::random::Random;

    /// Where a book of these sides, prices and volumes is counted.
    fn place(orders: &[(u32, u32, u32)], reference: u32) -> &'static str {
        let orders = orders.iter().map(|&(side, price, volume)| Order {
            side,
            price,
            volume,
        });
        let orders: Vec<Order> = orders.collect();
        let call = Call::plain(&mut Random::new(1), &orders, reference);
        WORDS[auction_place(&call, &compare(&call).unwrap().sums)]
    }

    #[test]
    fn by_each_step() {
        let [low, high] = [10_00, 11_00];
        let tied = [(0, high, 100), (1, low, 100)];
        for (orders, reference, expected) in [
            (&[(2, low, 1)][..], 0, "refused 15"),
            (&[(0, 0, 1), (1, 0, 1)], 0, "none, no limit in the list"),
            (&[(0, low, 1)], 0, "none, no volume at any limit"),
            (&[(0, low, 1), (1, low, 1)], 0, "price, the only candidate"),
            (
                &[(0, high, 200), (1, low, 100), (1, high, 150)],
                0,
                "price by volume, the highest",
            ),
            (
                &[(1, low, 200), (0, high, 100), (0, low, 150)],
                0,
                "price by volume, another",
            ),
            (
                &[(0, high, 100), (0, low, 50), (1, low, 100)],
                0,
                "price by difference, the highest",
            ),
            (
                &[(1, low, 100), (1, high, 50), (0, high, 100)],
                0,
                "price by difference, another",
            ),
            (&tied, 10_51, "price by distance, the highest"),
            (&tied, 10_49, "price by distance, another"),
            (&tied, 10_50, "price as the higher"),
        ] {
            assert_eq!(place(orders, reference), expected, "{orders:?}");
        }
    }
}
