//! One book of orders, and where its prices stand.

use std::fmt;

use guvontsira::library::AuctionOrder;
use second::auction::Order;
use second::ladder;

/// How far prices are shared.
#[derive(Clone, Copy, Debug, PartialEq, Eq)]
pub enum Prices {
    /// One order in eight is an ATO; limits are at 200 neighbouring prices.
    Shared,
    /// All are limits, and no price comes twice.
    Different,
}

impl Prices {
    /// The ladder position of the first price: 25.00 and 2.00 baht.
    fn first(self) -> u32 {
        match self {
            Prices::Shared => 600,
            Prices::Different => 200,
        }
    }

    fn count(self, length: usize) -> u32 {
        match self {
            Prices::Shared => 200,
            Prices::Different => length as u32,
        }
    }

    /// The price in the middle, which is a reference.
    pub fn middle(self, length: usize) -> u32 {
        self.nth(self.count(length) / 2)
    }

    fn nth(self, place: u32) -> u32 {
        ladder::price(self.first() + place).expect("the position is on the ladder")
    }

    pub fn book(self, length: usize, random: &mut Random) -> Book {
        let mut orders = Vec::with_capacity(length);
        for place in 0..length as u32 {
            let price = match self {
                Prices::Shared if random.below(8) == 0 => 0,
                Prices::Shared => self.nth(random.below(self.count(length))),
                Prices::Different => self.nth(place),
            };
            orders.push(random.order(price));
        }
        // Prices that rise through the list would be easy to predict.
        for end in (1..length).rev() {
            orders.swap(end, random.below(end as u32 + 1) as usize);
        }
        Book::new(orders)
    }
}

impl fmt::Display for Prices {
    fn fmt(&self, f: &mut fmt::Formatter<'_>) -> fmt::Result {
        f.pad(match self {
            Prices::Shared => "shared",
            Prices::Different => "different",
        })
    }
}

/// The same orders for each implementation, which have structs of their own.
pub struct Book {
    pub gate: Vec<AuctionOrder>,
    pub second: Vec<Order>,
}

pub fn of_gate(order: &Order) -> AuctionOrder {
    AuctionOrder {
        side: order.side,
        price: order.price,
        volume: order.volume,
    }
}

impl Book {
    pub fn new(orders: Vec<Order>) -> Self {
        Book {
            gate: orders.iter().map(of_gate).collect(),
            second: orders,
        }
    }
}

/// A small deterministic generator (splitmix64).
pub struct Random(pub u64);

impl Random {
    pub fn below(&mut self, bound: u32) -> u32 {
        self.0 = self.0.wrapping_add(0x9e37_79b9_7f4a_7c15);
        let mut mixed = self.0;
        mixed = (mixed ^ (mixed >> 30)).wrapping_mul(0xbf58_476d_1ce4_e5b9);
        mixed = (mixed ^ (mixed >> 27)).wrapping_mul(0x94d0_49bb_1331_11eb);
        mixed ^= mixed >> 31;
        (mixed % u64::from(bound)) as u32
    }

    /// At this price, on either side.
    pub fn order(&mut self, price: u32) -> Order {
        Order {
            side: self.below(2),
            price,
            volume: 100 * (1 + self.below(100)),
        }
    }
}

#[cfg(test)]
mod tests {
    use std::collections::HashSet;

    use super::*;

    fn orders(prices: Prices, length: usize) -> Vec<Order> {
        prices.book(length, &mut Random(1)).second
    }

    #[test]
    fn shared_prices() {
        let orders = orders(Prices::Shared, 1_024);
        let ato = orders.iter().filter(|order| !order.is_limit()).count();
        assert!((96..160).contains(&ato), "{ato}");
        let limits = orders.iter().filter(|order| order.is_limit());
        assert!(
            limits
                .clone()
                .all(|order| (25_00..=74_75).contains(&order.price))
        );
        let prices: HashSet<u32> = limits.map(|order| order.price).collect();
        assert!((150..=200).contains(&prices.len()), "{}", prices.len());
    }

    #[test]
    fn different_prices() {
        for length in [16, 1_024] {
            let orders = orders(Prices::Different, length);
            let prices: HashSet<u32> = orders.iter().map(|order| order.price).collect();
            assert_eq!(prices.len(), length);
            assert!(prices.contains(&2_00) && !prices.contains(&0));
        }
    }

    #[test]
    fn both_sides_have_half() {
        for prices in [Prices::Shared, Prices::Different] {
            let orders = orders(prices, 1_024);
            let sellers = orders.iter().filter(|order| order.side == 1).count();
            assert!((462..562).contains(&sellers), "{sellers}");
        }
    }

    #[test]
    fn both_have_the_same_orders() {
        let Book { gate, second } = Prices::Shared.book(128, &mut Random(1));
        let of_gate = gate
            .iter()
            .map(|order| (order.side, order.price, order.volume));
        let of_second = second
            .iter()
            .map(|order| (order.side, order.price, order.volume));
        assert!(of_gate.eq(of_second));
    }
}
