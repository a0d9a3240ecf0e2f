//! The orders of an auction, and the copy of them that the library is handed.

use super::answer::{AuctionAnswer, OF_ORDERS, known};
use crate::codes::Side;
use crate::library;
use crate::release::check_linked;

/// The most orders in the list of an auction.
pub const MAX_AUCTION_ORDERS: usize = 1_024;

/// An order of an auction.
#[derive(Clone, Copy, Debug, PartialEq, Eq, Hash)]
pub struct AuctionOrder {
    pub side: Side,
    /// Of a limit, in satang; `None` for ATO or ATC. A limit of 0 is off the ladder,
    /// and refused.
    pub price: Option<u32>,
    /// 1 to [`MAX_VOLUME`](crate::MAX_VOLUME).
    pub volume: u32,
}

impl AuctionOrder {
    pub(super) fn bare(self) -> library::AuctionOrder {
        library::AuctionOrder {
            side: self.side.code().into(),
            price: match self.price {
                None => 0,
                // To the library 0 is ATO or ATC: it is told another price that is
                // off the ladder.
                Some(0) => u32::MAX,
                Some(price) => price,
            },
            volume: self.volume,
        }
    }

    /// One that the library took.
    pub(super) fn held(bare: &library::AuctionOrder) -> AuctionOrder {
        AuctionOrder {
            side: Side::from_code(bare.side).expect("the library holds no other side"),
            price: (bare.price != 0).then_some(bare.price),
            volume: bare.volume,
        }
    }
}

/// The orders of the last call, with bare numbers.
pub(super) struct BareOrders {
    /// One place more than there may be orders, so that the library is told of too
    /// many.
    places: Box<[library::AuctionOrder]>,
    /// How many places of the scratch lists are of the last call.
    filled: usize,
}

impl BareOrders {
    pub fn new() -> BareOrders {
        check_linked();
        BareOrders {
            places: list(MAX_AUCTION_ORDERS + 1),
            filled: 0,
        }
    }

    /// Hands a copy of the orders to a call of the library.
    pub fn price(
        &mut self,
        orders: &[AuctionOrder],
        call: impl FnOnce(&[library::AuctionOrder]) -> library::AuctionNumbers,
    ) -> AuctionAnswer {
        for (place, order) in self.places.iter_mut().zip(orders) {
            *place = order.bare();
        }
        let count = orders.len().min(self.places.len());
        let answer = known(call(&self.places[..count]), OF_ORDERS);
        // After a refusal the lists hold what an earlier call left.
        self.filled = match answer {
            AuctionAnswer::Refused(_) => 0,
            _ => count,
        };
        answer
    }

    /// What the last call left in a scratch list, at each order's place.
    pub fn left<'a>(&self, list: &'a [u64]) -> &'a [u64] {
        &list[..self.filled]
    }
}

/// A list of orders, every place zero.
pub(super) fn list(places: usize) -> Box<[library::AuctionOrder]> {
    let zero = library::AuctionOrder {
        side: 0,
        price: 0,
        volume: 0,
    };
    vec![zero; places].into()
}

/// A scratch list for any call.
pub(super) fn scratch() -> Box<[u64]> {
    vec![0; MAX_AUCTION_ORDERS].into()
}
