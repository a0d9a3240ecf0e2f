//! What the linked library and the second implementation are handed for one
//! auction (paper 02, requests 5 and 6).

use second::auction::{Order, SCRATCH_PLACES};

use crate::random::Random;

#[derive(Clone, Debug)]
pub struct Call {
    pub orders: Vec<Order>,
    pub reference: u32,
    /// Request 5's two scratch lists before the call.
    pub buyers: Vec<u64>,
    pub sellers: Vec<u64>,
    /// Request 6's one.
    pub volumes: Vec<u64>,
}

impl Call {
    /// Scratch lists of these lengths, the buyers', the sellers' and the volumes',
    /// with random words in them.
    pub fn new(random: &mut Random, orders: &[Order], reference: u32, places: [usize; 3]) -> Self {
        let [buyers, sellers, volumes] =
            places.map(|places| (0..places).map(|_| random.next()).collect());
        Call {
            orders: orders.to_vec(),
            reference,
            buyers,
            sellers,
            volumes,
        }
    }

    /// Scratch lists no longer than they must be.
    pub fn plain(random: &mut Random, orders: &[Order], reference: u32) -> Self {
        Call::new(random, orders, reference, [SCRATCH_PLACES; 3])
    }

    /// Everything that a reader needs to make the call again, but for what the
    /// scratch lists hold.
    pub fn describe(&self) -> String {
        let heading = format!(
            "auction, reference {}, two scratch lists of {} and {} places or one of {}, {} orders:\n",
            self.reference,
            self.buyers.len(),
            self.sellers.len(),
            self.volumes.len(),
            self.orders.len()
        );
        heading + &describe_orders(&self.orders)
    }
}

/// A line for each order, and one for those that repeat it.
pub fn describe_orders(orders: &[Order]) -> String {
    let mut out = String::new();
    for equal in orders.chunk_by(PartialEq::eq) {
        let Order {
            side,
            price,
            volume,
        } = equal[0];
        out += &format!("  side {side} price {price} volume {volume}");
        out += &match equal.len() {
            1 => String::from("\n"),
            times => format!(", {times} times\n"),
        };
    }
    out
}

#[cfg(test)]
mod tests {
    use super::*;

    #[test]
    fn a_book_to_read() {
        let buy = Order {
            side: 0,
            price: 50_00,
            volume: 100,
        };
        let sell = Order { side: 1, ..buy };
        let call = Call::plain(&mut Random::new(1), &[buy, buy, sell], 7);
        assert_eq!(
            call.describe(),
            "auction, reference 7, two scratch lists of 1024 and 1024 places or one of 1024, 3 \
             orders:\n  \
             side 0 price 5000 volume 100, 2 times\n  \
             side 1 price 5000 volume 100\n"
        );
    }
}
