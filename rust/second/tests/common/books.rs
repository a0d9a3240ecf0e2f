//! Orders of an auction's list, and the books that the source documents print.

use second::auction::Order;

/// Stands in the scratch lists before a call.
pub const UNTOUCHED: u64 = 7_777;

/// The price of an ATO or ATC.
pub const ATO: u32 = 0;

pub const fn buy(price: u32, volume: u32) -> Order {
    Order {
        side: 0,
        price,
        volume,
    }
}

pub const fn sell(price: u32, volume: u32) -> Order {
    Order {
        side: 1,
        price,
        volume,
    }
}

/// A line of a document's table: price, buyers, sellers, volume.
pub type Line = (u32, u64, u64, u64);

/// A document's book with its printed table, and the price and volume it gives.
pub struct Book {
    pub orders: &'static [Order],
    pub table: &'static [Line],
    pub price: u32,
    pub volume: u64,
}

pub const DOCUMENT_002: Book = Book {
    orders: &[
        buy(ATO, 1_000),
        buy(103_00, 1_000),
        buy(103_00, 1_300),
        buy(102_00, 500),
        buy(102_00, 1_100),
        buy(101_00, 800),
        buy(101_00, 300),
        sell(102_00, 2_500),
        sell(102_00, 1_000),
        sell(103_00, 500),
        sell(104_00, 1_000),
        sell(105_00, 1_500),
        sell(106_00, 500),
    ],
    table: &[
        (101_00, 6_000, 0, 0),
        (102_00, 4_900, 3_500, 3_500),
        (103_00, 3_300, 4_000, 3_300),
        (104_00, 1_000, 5_000, 1_000),
        (105_00, 1_000, 6_500, 1_000),
        (106_00, 1_000, 7_000, 1_000),
    ],
    price: 102_00,
    volume: 3_500,
};

/// Its table has a line for 50 baht, at which there is no order.
pub const DOCUMENT_003: Book = Book {
    orders: &[
        buy(49_00, 900),
        buy(48_00, 300),
        sell(49_00, 400),
        sell(52_00, 4_400),
        sell(ATO, 600),
    ],
    table: &[
        (48_00, 1_200, 600, 600),
        (49_00, 900, 1_000, 900),
        (50_00, 0, 1_000, 0),
        (52_00, 0, 5_400, 0),
    ],
    price: 49_00,
    volume: 900,
};
