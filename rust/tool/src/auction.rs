//! The price that an auction would give, and what is said to a book that is refused.

pub mod follow;
pub mod prices;
pub mod volumes;

use std::io::{self, Write};
use std::path::Path;

use events::{Book, BookOrder, Price, Wrong};
use guvontsira::{AuctionAnswer, AuctionOrder, Side};
use guvontsira::{MAX_AUCTION_ORDERS, MAX_PRICE, MAX_VOLUME};

use crate::failure::Failure;
use crate::input::bad_line;
use crate::ladder::standing;

/// The price with its volume, if there is one.
type Given = Option<(u32, u64)>;

/// What one of the library's calls gives for the orders of the book.
fn given(
    file: &Path,
    book: &Book,
    mut call: impl FnMut(&[AuctionOrder]) -> AuctionAnswer,
) -> Result<Given, Failure> {
    let orders: Vec<AuctionOrder> = book.orders.iter().map(typed).collect();
    match call(&orders) {
        AuctionAnswer::Price { price, volume } => Ok(Some((price, volume))),
        AuctionAnswer::None => Ok(None),
        AuctionAnswer::Refused(number) => Err(bad_line(file, refused(number, book, call))),
    }
}

fn typed(order: &BookOrder) -> AuctionOrder {
    AuctionOrder {
        side: Side::from_code(order.side.into()).expect("a book has no other sides"),
        price: order.price,
        volume: order.volume,
    }
}

fn title(out: &mut impl Write, book: &Book) -> io::Result<()> {
    let count = book.orders.len();
    let word = if count == 1 { "order" } else { "orders" };
    // 0 is a reference like another, and no absent price.
    let reference = match book.reference {
        0 => String::from("0.00"),
        reference => Price(reference).to_string(),
    };
    writeln!(out, "{count} {word}, reference {reference}\n")
}

fn last_line(out: &mut impl Write, book: &Book, given: Given) -> io::Result<()> {
    let is_limit = |order: &BookOrder| order.price.is_some();
    match given {
        Some((price, volume)) => writeln!(out, "{}", projected(price, volume)),
        None if book.orders.iter().any(is_limit) => {
            writeln!(out, "no projected price: no limit's price has volume")
        }
        None => writeln!(out, "no projected price: no limit in the book"),
    }
}

fn projected(price: u32, volume: u64) -> String {
    format!("projected price {}, volume {volume}", Price(price))
}

/// The library does not say which order it refuses: each is handed in alone.
fn refused(
    number: u8,
    book: &Book,
    mut call: impl FnMut(&[AuctionOrder]) -> AuctionAnswer,
) -> Wrong {
    let is_refused =
        |order: &&BookOrder| matches!(call(&[typed(order)]), AuctionAnswer::Refused(_));
    let (line, reason) = match book.orders.get(MAX_AUCTION_ORDERS) {
        Some(order) => (order.line, too_many()),
        None => {
            let bad = book.orders.iter().find(is_refused);
            let bad = bad.expect("a list is refused for an order in it");
            (bad.line, bad_order(bad))
        }
    };
    Wrong {
        line,
        reason: format!("refused {number}: {reason}"),
    }
}

/// Why 14.
fn too_many() -> String {
    format!("more than {MAX_AUCTION_ORDERS} orders")
}

/// Why 15.
fn bad_order(order: &BookOrder) -> String {
    match order.price.map(|price| (price, guvontsira::nearest(price))) {
        Some((price, None)) => format!("{} is above {}", Price(price), Price(MAX_PRICE)),
        Some((price, Some(nearest))) if !nearest.legal => standing(price, nearest),
        _ => format!("volume {} is not 1 to {MAX_VOLUME}", order.volume),
    }
}
