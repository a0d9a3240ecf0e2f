//! A list of orders that come and go, and its price after each change.

use std::fmt;

use super::answer::{AuctionAnswer, OF_A_PLACE, OF_ORDERS, known};
use super::orders::{AuctionOrder, MAX_AUCTION_ORDERS, list, scratch};
use crate::library;
use crate::release::check_linked;

/// A list of orders that is kept with its price: made once, it owns the list, the count
/// of orders held and the one scratch list. Orders are held in the order in which they
/// were added; a place counts from 0.
///
/// ```
/// use guvontsira::{AuctionAnswer, AuctionOrder, CurrentAuction, Side};
///
/// let order = |side, price, volume| AuctionOrder { side, price, volume };
/// let given = |price, volume| AuctionAnswer::Price { price, volume };
/// // The example of source document 003, an order after another.
/// let mut auction = CurrentAuction::new();
/// let answer = auction.add(order(Side::Buy, Some(49_00), 900), 0);
/// assert_eq!(answer, AuctionAnswer::None);
/// let answer = auction.add(order(Side::Buy, Some(48_00), 300), 0);
/// assert_eq!(answer, AuctionAnswer::None);
/// let answer = auction.add(order(Side::Sell, Some(49_00), 400), 0);
/// assert_eq!(answer, given(49_00, 400));
/// let answer = auction.add(order(Side::Sell, Some(52_00), 4_400), 0);
/// assert_eq!(answer, given(49_00, 400));
/// let answer = auction.add(order(Side::Sell, None, 600), 0); // ATO or ATC
/// assert_eq!(answer, given(49_00, 900));
/// assert_eq!(auction.volumes(), [900, 600, 900, 0, 0]);
///
/// // The sell at 49.00 is taken out; the two behind it close the gap.
/// assert_eq!(auction.take(2, 0), given(49_00, 600));
/// assert_eq!(auction.volumes(), [600, 600, 0, 0]);
/// assert_eq!(auction.orders().nth(2), Some(order(Side::Sell, Some(52_00), 4_400)));
///
/// // Four orders are held: there is no place 4, and nothing changes.
/// assert_eq!(auction.take(4, 0), AuctionAnswer::Refused(16));
/// assert_eq!(auction.len(), 4);
/// ```
pub struct CurrentAuction {
    orders: Box<[library::AuctionOrder]>,
    count: usize,
    volumes: Box<[u64]>,
}

impl CurrentAuction {
    /// With no order held.
    ///
    /// # Panics
    /// As [`State::new`](crate::State::new).
    pub fn new() -> CurrentAuction {
        check_linked();
        CurrentAuction {
            orders: list(MAX_AUCTION_ORDERS),
            count: 0,
            volumes: scratch(),
        }
    }

    /// Adds the order at the end, and gives what
    /// [`Auction::price`](crate::Auction::price) gives for the orders that are then
    /// held. Each call has its own reference. Nothing is allocated.
    ///
    /// Refused with 14 if [`MAX_AUCTION_ORDERS`] are held, then with 15 if the order is
    /// bad; a refusal changes nothing.
    ///
    /// # Panics
    /// As that.
    pub fn add(&mut self, order: AuctionOrder, reference: u32) -> AuctionAnswer {
        // Every place past the count is zero already: those that are not needed are not
        // lent, and so not cleared again.
        let places = MAX_AUCTION_ORDERS.min(self.count + 1);
        let numbers = library::auction_add(
            &mut self.orders[..places],
            &mut self.count,
            order.bare(),
            reference,
            &mut self.volumes,
        );
        known(numbers, OF_ORDERS)
    }

    /// Takes out the order at the place, closes the gap, and gives what
    /// [`Auction::price`](crate::Auction::price) gives for the orders that are then
    /// held. Nothing is allocated.
    ///
    /// Refused with 16 if no order is held at the place; a refusal changes nothing.
    ///
    /// # Panics
    /// As that.
    pub fn take(&mut self, place: usize, reference: u32) -> AuctionAnswer {
        // As in `add`.
        let places = self.count;
        let numbers = library::auction_take(
            &mut self.orders[..places],
            &mut self.count,
            place,
            reference,
            &mut self.volumes,
        );
        known(numbers, OF_A_PLACE)
    }

    /// The orders held, by their places.
    pub fn orders(&self) -> impl ExactSizeIterator<Item = AuctionOrder> {
        self.orders[..self.count].iter().map(AuctionOrder::held)
    }

    /// At the place of each order held, the volume at its price; 0 for ATO or ATC. They
    /// are those of the last call that was not refused.
    pub fn volumes(&self) -> &[u64] {
        &self.volumes[..self.count]
    }

    /// How many orders are held.
    pub fn len(&self) -> usize {
        self.count
    }

    pub fn is_empty(&self) -> bool {
        self.count == 0
    }
}

impl Default for CurrentAuction {
    fn default() -> CurrentAuction {
        CurrentAuction::new()
    }
}

impl fmt::Debug for CurrentAuction {
    fn fmt(&self, f: &mut fmt::Formatter<'_>) -> fmt::Result {
        let orders: Vec<AuctionOrder> = self.orders().collect();
        f.debug_struct("CurrentAuction")
            .field("orders", &orders)
            .field("volumes", &self.volumes())
            .finish()
    }
}
