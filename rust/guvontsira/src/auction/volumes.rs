//! The price that an auction would give, with one scratch list.

use std::fmt;

use super::answer::AuctionAnswer;
use super::orders::{AuctionOrder, BareOrders, scratch};
use crate::library;

/// What the library is lent for an auction with one scratch list, made once and used
/// for every call. The answers are those of [`Auction`](crate::Auction); the volume at
/// each order's price stands where that has the two sums.
///
/// ```
/// use guvontsira::{AuctionAnswer, AuctionOrder, AuctionVolumes, Side};
///
/// let order = |side, price, volume| AuctionOrder { side, price, volume };
/// // The example of source document 002.
/// let orders = [
///     order(Side::Buy, None, 1_000), // ATO
///     order(Side::Buy, Some(103_00), 1_000),
///     order(Side::Buy, Some(103_00), 1_300),
///     order(Side::Buy, Some(102_00), 500),
///     order(Side::Buy, Some(102_00), 1_100),
///     order(Side::Buy, Some(101_00), 800),
///     order(Side::Buy, Some(101_00), 300),
///     order(Side::Sell, Some(102_00), 2_500),
///     order(Side::Sell, Some(102_00), 1_000),
///     order(Side::Sell, Some(103_00), 500),
///     order(Side::Sell, Some(104_00), 1_000),
///     order(Side::Sell, Some(105_00), 1_500),
///     order(Side::Sell, Some(106_00), 500),
/// ];
/// let mut auction = AuctionVolumes::new();
/// let given = AuctionAnswer::Price { price: 102_00, volume: 3_500 };
/// assert_eq!(auction.price(&orders, 0), given);
/// assert_eq!(
///     auction.volumes(),
///     [0, 3_300, 3_300, 3_500, 3_500, 0, 0, 3_500, 3_500, 3_300, 1_000, 1_000, 1_000]
/// );
///
/// // The example of source document 003.
/// let orders = [
///     order(Side::Buy, Some(49_00), 900),
///     order(Side::Buy, Some(48_00), 300),
///     order(Side::Sell, Some(49_00), 400),
///     order(Side::Sell, Some(52_00), 4_400),
///     order(Side::Sell, None, 600), // ATO or ATC
/// ];
/// let given = AuctionAnswer::Price { price: 49_00, volume: 900 };
/// assert_eq!(auction.price(&orders, 0), given);
/// assert_eq!(auction.volumes(), [900, 600, 900, 0, 0]);
/// ```
pub struct AuctionVolumes {
    orders: BareOrders,
    volumes: Box<[u64]>,
}

impl AuctionVolumes {
    /// # Panics
    /// As [`State::new`](crate::State::new).
    pub fn new() -> AuctionVolumes {
        AuctionVolumes {
            orders: BareOrders::new(),
            volumes: scratch(),
        }
    }

    /// What [`Auction::price`](crate::Auction::price) gives. Nothing is allocated.
    ///
    /// # Panics
    /// As that.
    pub fn price(&mut self, orders: &[AuctionOrder], reference: u32) -> AuctionAnswer {
        self.orders.price(orders, |orders| {
            library::auction_volumes(orders, reference, &mut self.volumes)
        })
    }

    /// At each order's place, the volume at its price; 0 for ATO or ATC. They are
    /// those of the last call, and after a refusal there are none.
    pub fn volumes(&self) -> &[u64] {
        self.orders.left(&self.volumes)
    }
}

impl Default for AuctionVolumes {
    fn default() -> AuctionVolumes {
        AuctionVolumes::new()
    }
}

impl fmt::Debug for AuctionVolumes {
    fn fmt(&self, f: &mut fmt::Formatter<'_>) -> fmt::Result {
        f.debug_struct("AuctionVolumes")
            .field("volumes", &self.volumes())
            .finish_non_exhaustive()
    }
}
