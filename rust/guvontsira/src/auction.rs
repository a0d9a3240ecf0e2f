//! The price that an auction would give, with two scratch lists; with one in
//! `volumes`, and kept while orders come and go in `current`.

mod answer;
mod current;
mod orders;
mod volumes;

use std::fmt;

use crate::library;

pub use answer::AuctionAnswer;
pub use current::CurrentAuction;
pub use orders::{AuctionOrder, MAX_AUCTION_ORDERS};
use orders::{BareOrders, scratch};
pub use volumes::AuctionVolumes;

/// What the library is lent for an auction, made once and used for every call: two
/// scratch lists. [`AuctionVolumes`] has one; [`CurrentAuction`] owns the orders too.
///
/// ```
/// use guvontsira::{Auction, AuctionAnswer, AuctionOrder, Side};
///
/// let order = |side, price, volume| AuctionOrder { side, price, volume };
/// // The example of source document 002.
/// let orders = [
///     order(Side::Buy, None, 1_000), // ATO
///     order(Side::Buy, Some(103_00), 1_000),
///     order(Side::Buy, Some(103_00), 1_300),
///     order(Side::Buy, Some(102_00), 500),
///     order(Side::Buy, Some(102_00), 1_100),
///     order(Side::Buy, Some(101_00), 800),
///     order(Side::Buy, Some(101_00), 300),
///     order(Side::Sell, Some(102_00), 2_500),
///     order(Side::Sell, Some(102_00), 1_000),
///     order(Side::Sell, Some(103_00), 500),
///     order(Side::Sell, Some(104_00), 1_000),
///     order(Side::Sell, Some(105_00), 1_500),
///     order(Side::Sell, Some(106_00), 500),
/// ];
/// let mut auction = Auction::new();
/// let given = AuctionAnswer::Price { price: 102_00, volume: 3_500 };
/// assert_eq!(auction.price(&orders, 0), given);
/// // The sums at 103.00, the price of the order in place 1.
/// assert_eq!((auction.buyers()[1], auction.sellers()[1]), (3_300, 4_000));
///
/// // The example of source document 003.
/// let orders = [
///     order(Side::Buy, Some(49_00), 900),
///     order(Side::Buy, Some(48_00), 300),
///     order(Side::Sell, Some(49_00), 400),
///     order(Side::Sell, Some(52_00), 4_400),
///     order(Side::Sell, None, 600), // ATO or ATC
/// ];
/// let given = AuctionAnswer::Price { price: 49_00, volume: 900 };
/// assert_eq!(auction.price(&orders, 0), given);
/// assert_eq!(auction.buyers(), [900, 1_200, 900, 0, 0]);
/// assert_eq!(auction.sellers(), [1_000, 600, 1_000, 5_400, 0]);
/// ```
pub struct Auction {
    orders: BareOrders,
    buyers: Box<[u64]>,
    sellers: Box<[u64]>,
}

impl Auction {
    /// # Panics
    /// As [`State::new`](crate::State::new).
    pub fn new() -> Auction {
        Auction {
            orders: BareOrders::new(),
            buyers: scratch(),
            sellers: scratch(),
        }
    }

    /// The price that an auction of these orders would give. Candidates are the
    /// prices of the limits. At a price, the buyers' sum is the volume of all buys
    /// that are ATO, ATC or limits at or above it, the sellers' sum that of all sells
    /// that are ATO, ATC or limits at or below it, and the smaller sum is the volume.
    /// Given is the candidate with the most volume; of several, the one with the
    /// least difference of the sums, then with the least distance to the reference,
    /// then the higher.
    ///
    /// The reference is any number, as a rule the last sale in satang. Nothing is
    /// allocated.
    ///
    /// # Panics
    /// If the linked archive is of another release and gives a refusal that this
    /// crate does not know.
    pub fn price(&mut self, orders: &[AuctionOrder], reference: u32) -> AuctionAnswer {
        self.orders.price(orders, |orders| {
            library::auction(orders, reference, &mut self.buyers, &mut self.sellers)
        })
    }

    /// At each order's place, the buyers' sum at its price; 0 for ATO or ATC. They
    /// are those of the last call, and after a refusal there are none.
    pub fn buyers(&self) -> &[u64] {
        self.orders.left(&self.buyers)
    }

    /// The sellers' sums, likewise.
    pub fn sellers(&self) -> &[u64] {
        self.orders.left(&self.sellers)
    }
}

impl Default for Auction {
    fn default() -> Auction {
        Auction::new()
    }
}

impl fmt::Debug for Auction {
    fn fmt(&self, f: &mut fmt::Formatter<'_>) -> fmt::Result {
        f.debug_struct("Auction")
            .field("buyers", &self.buyers())
            .field("sellers", &self.sellers())
            .finish_non_exhaustive()
    }
}
