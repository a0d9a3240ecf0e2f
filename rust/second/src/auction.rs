//! The price that an auction of a list of orders would give (paper 02, requests
//! 5 and 6).

use std::fmt;

use crate::answer::Refusal;
use crate::codes::Side;
use crate::ladder;
use crate::state::MAX_VOLUME;

/// "at most 1,024" orders are in a list.
pub const MAX_ORDERS: usize = 1_024;
/// "Two scratch lists of 1,024 64-bit numbers", or "only one"; longer ones will
/// do.
pub const SCRATCH_PLACES: usize = 1_024;

/// An order of the list, with its numbers as they are lent.
#[derive(Clone, Copy, Debug, PartialEq, Eq)]
pub struct Order {
    pub side: u32,
    /// "price 0 for ATO or ATC"
    pub price: u32,
    pub volume: u32,
}

impl Order {
    pub fn is_limit(&self) -> bool {
        self.price != 0
    }

    /// Turned away with 15: "a side not 0 or 1, a price neither 0 nor legal, or
    /// a volume outside 1 to 20,000,000".
    pub(crate) fn is_sound(&self) -> bool {
        Side::from_code(self.side).is_some()
            && (!self.is_limit() || ladder::legal(self.price))
            && (1..=MAX_VOLUME).contains(&self.volume)
    }
}

/// How many shares buyers and sellers have at a price.
#[derive(Clone, Copy, Debug, Default, PartialEq, Eq)]
pub struct Sums {
    pub buyers: u64,
    pub sellers: u64,
}

impl Sums {
    /// "At a price, buyers are ATO, ATC and limits at or above it; sellers are
    /// ATO, ATC and limits at or below it."
    pub fn at(price: u32, orders: &[Order]) -> Sums {
        let mut sums = Sums {
            buyers: 0,
            sellers: 0,
        };
        for order in orders {
            let volume = u64::from(order.volume);
            match Side::from_code(order.side) {
                Some(Side::Buy) if !order.is_limit() || order.price >= price => {
                    sums.buyers += volume;
                }
                Some(Side::Sell) if !order.is_limit() || order.price <= price => {
                    sums.sellers += volume;
                }
                _ => {}
            }
        }
        sums
    }

    /// "The volume is the smaller sum."
    pub fn volume(&self) -> u64 {
        self.buyers.min(self.sellers)
    }

    pub fn difference(&self) -> u64 {
        self.buyers.abs_diff(self.sellers)
    }
}

/// "Candidates are the limit prices in the list."
#[derive(Clone, Copy)]
struct Candidate {
    price: u32,
    sums: Sums,
}

impl Candidate {
    fn at(price: u32, orders: &[Order]) -> Candidate {
        Candidate {
            price,
            sums: Sums::at(price, orders),
        }
    }

    /// "The price has the most volume; then the least difference of the sums;
    /// then the least distance to the reference; then it is the higher."
    fn beats(&self, other: &Candidate, reference: u32) -> bool {
        let volumes = [self, other].map(|candidate| candidate.sums.volume());
        if volumes[0] != volumes[1] {
            return volumes[0] > volumes[1];
        }
        let differences = [self, other].map(|candidate| candidate.sums.difference());
        if differences[0] != differences[1] {
            return differences[0] < differences[1];
        }
        let distances = [self, other].map(|candidate| candidate.price.abs_diff(reference));
        if distances[0] != distances[1] {
            return distances[0] < distances[1];
        }
        self.price > other.price
    }
}

#[derive(Clone, Copy, Debug, PartialEq, Eq)]
pub enum Answer {
    Price {
        price: u32,
        volume: u64,
    },
    /// No candidate has volume above 0.
    None,
    /// Turned away, with the number of the request.
    Refused(u8),
}

impl From<Refusal> for Answer {
    fn from(refusal: Refusal) -> Self {
        Answer::Refused(refusal as u8)
    }
}

impl fmt::Display for Answer {
    fn fmt(&self, f: &mut fmt::Formatter<'_>) -> fmt::Result {
        match self {
            Answer::Price { price, volume } => write!(f, "price {price} volume {volume}"),
            Answer::None => f.write_str("none"),
            Answer::Refused(number) => write!(f, "refused {number}"),
        }
    }
}

/// "14 if the list is longer or a scratch list shorter, first; 15 for" an order
/// that is not sound.
pub(crate) fn check(orders: &[Order], scratch_lists: &[&[u64]]) -> Result<(), Refusal> {
    let is_short = |scratch: &&[u64]| scratch.len() < SCRATCH_PLACES;
    if orders.len() > MAX_ORDERS || scratch_lists.iter().any(is_short) {
        return Err(Refusal::Lists);
    }
    if !orders.iter().all(Order::is_sound) {
        return Err(Refusal::ListedOrder);
    }
    Ok(())
}

/// The answer for a list that `check` let pass. Each order's place in it is handed
/// to `hold` once, with the sums at a limit's price, and sums of 0 for an ATO or
/// ATC.
fn choose(orders: &[Order], reference: u32, mut hold: impl FnMut(usize, Sums)) -> Answer {
    let mut best: Option<Candidate> = None;
    for (place, order) in orders.iter().enumerate() {
        if !order.is_limit() {
            hold(place, Sums::default());
            continue;
        }
        let candidate = Candidate::at(order.price, orders);
        hold(place, candidate.sums);
        if best.is_none_or(|best| candidate.beats(&best, reference)) {
            best = Some(candidate);
        }
    }
    // The one that no other beats has the most volume: if it has none, none has.
    match best.filter(|best| best.sums.volume() > 0) {
        Some(Candidate { price, sums }) => Answer::Price {
            price,
            volume: sums.volume(),
        },
        None => Answer::None,
    }
}

/// Request 5 leaves free what the scratch lists hold after a call that is not
/// refused. Here it is, at each limit's place in the list of orders, the buyers'
/// and the sellers' sum at its price, 0 at the place of an ATO or ATC, and behind
/// the last order what they held. "a refusal leaves them equal".
pub fn auction(
    orders: &[Order],
    reference: u32,
    buyers: &mut [u64],
    sellers: &mut [u64],
) -> Answer {
    if let Err(refusal) = check(orders, &[buyers, sellers]) {
        return refusal.into();
    }
    choose(orders, reference, |place, sums| {
        buyers[place] = sums.buyers;
        sellers[place] = sums.sellers;
    })
}

/// Request 6: "The price, the volume, "none" and the refusals must be the ones
/// given before", by `auction`, with one scratch list.
///
/// "After a call not refused it holds, at each limit's place in the order list,
/// the volume at that price, and 0 elsewhere": at the place of every ATO or ATC,
/// and at every place behind the last order to the end of the lent list, however
/// long it is. Each of two limits of one price has the volume at its own place. A
/// refusal leaves the list equal.
pub fn auction_volumes(orders: &[Order], reference: u32, volumes: &mut [u64]) -> Answer {
    if let Err(refusal) = check(orders, &[volumes]) {
        return refusal.into();
    }
    choose_volumes(orders, reference, volumes)
}

/// Request 6's answer and scratch list for lists that `check` let pass.
pub(crate) fn choose_volumes(orders: &[Order], reference: u32, volumes: &mut [u64]) -> Answer {
    volumes[orders.len()..].fill(0);
    choose(orders, reference, |place, sums| {
        volumes[place] = sums.volume();
    })
}
