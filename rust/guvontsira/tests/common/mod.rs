//! Books of auctions as text; orders and answers, typed and bare.

// No file of tests uses all of it.
#![allow(dead_code)]

use guvontsira::{AuctionAnswer, AuctionOrder, MAX_PRICE, MAX_VOLUME, Side, library};

/// The orders and the reference of a text.
pub fn book(text: &str) -> (Vec<AuctionOrder>, u32) {
    let book = events::book(text).unwrap_or_else(|wrong| panic!("{text}: {wrong}"));
    (book.orders.iter().map(typed).collect(), book.reference)
}

pub fn typed(order: &events::BookOrder) -> AuctionOrder {
    AuctionOrder {
        side: Side::from_code(order.side.into()).unwrap(),
        price: order.price,
        volume: order.volume,
    }
}

pub fn given(price: u32, volume: u64) -> AuctionAnswer {
    AuctionAnswer::Price { price, volume }
}

pub fn limit(side: Side, price: u32, volume: u32) -> AuctionOrder {
    AuctionOrder {
        side,
        price: Some(price),
        volume,
    }
}

pub fn at_auction(side: Side, volume: u32) -> AuctionOrder {
    AuctionOrder {
        side,
        price: None,
        volume,
    }
}

/// One of each sort that is refused with 15.
pub fn bad_orders() -> [AuctionOrder; 8] {
    [
        limit(Side::Buy, 50_01, 100),
        limit(Side::Sell, MAX_PRICE + 2_00, 100),
        limit(Side::Sell, u32::MAX, 100),
        // No limit, and no ATO either.
        limit(Side::Sell, 0, 100),
        limit(Side::Sell, 50_00, 0),
        limit(Side::Buy, 50_00, MAX_VOLUME + 1),
        at_auction(Side::Buy, 0),
        at_auction(Side::Sell, u32::MAX),
    ]
}

pub fn bare(side: u32, price: u32, volume: u32) -> library::AuctionOrder {
    library::AuctionOrder {
        side,
        price,
        volume,
    }
}

pub fn numbers(volume: u64, price: u32, refusal: u32) -> library::AuctionNumbers {
    library::AuctionNumbers {
        volume,
        price,
        refusal,
    }
}
