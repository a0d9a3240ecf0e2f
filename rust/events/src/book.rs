//! An auction's book: a line an order, and one for the reference price.

use std::fmt;

use crate::convert::Wrong;
use crate::expected::{AnyOf, expected};
use crate::format::{Code, Price};
use crate::line_words::LineWords;
use crate::words::{LIMIT, SIDES, TYPES};

/// Of a line that gives the reference price.
pub const REFERENCE: &str = "reference";

/// What a line begins with.
const FIRST_WORDS: [&str; 3] = [SIDES.words[0], SIDES.words[1], REFERENCE];

/// The types that an auction knows: an MP order waits for no auction.
const AUCTION_TYPES: &[&str] = TYPES.words.split_at(3).0;

/// The orders of an auction, and the reference price.
#[derive(Clone, Debug, PartialEq, Eq)]
pub struct Book {
    /// In satang; 0 where the book has none.
    pub reference: u32,
    pub orders: Vec<BookOrder>,
}

/// An order of a book, or one that is added to a list. `Display` gives its words.
#[derive(Clone, Copy, Debug, PartialEq, Eq)]
pub struct BookOrder {
    /// From 1.
    pub line: usize,
    /// The code, 0 buy or 1 sell.
    pub side: u8,
    /// The code, 0 limit, 1 ATO or 2 ATC.
    pub order_type: u8,
    /// Of a limit, in satang, legal or not; `None` for ATO or ATC.
    pub price: Option<u32>,
    pub volume: u32,
}

/// The book of a text.
pub fn book(text: &str) -> Result<Book, Wrong> {
    let mut reference = None;
    let mut orders = Vec::new();
    for (text, line) in text.lines().zip(1..) {
        let wrong = |reason| Wrong { line, reason };
        let mut words = LineWords::of(text);
        match words.next() {
            None => continue,
            Some(REFERENCE) => {
                let price = words.price().map_err(wrong)?;
                if reference.replace(price).is_some() {
                    return Err(wrong(format!("{REFERENCE:?} stands twice")));
                }
            }
            Some(first) => {
                let side = SIDES.code(first);
                let side = side.ok_or_else(|| wrong(expected(first, AnyOf(&FIRST_WORDS))))?;
                orders.push(order(side, line, &mut words).map_err(wrong)?);
            }
        }
        words.end().map_err(wrong)?;
    }
    Ok(Book {
        reference: reference.unwrap_or_default(),
        orders,
    })
}

/// What follows the side.
pub fn order(side: u8, line: usize, words: &mut LineWords) -> Result<BookOrder, String> {
    let order_type = words.read(AnyOf(AUCTION_TYPES), |word| {
        TYPES.code(word).filter(|_| AUCTION_TYPES.contains(&word))
    })?;
    let price = match order_type {
        LIMIT => Some(words.present_price()?),
        _ => None,
    };
    let volume = words.volume()?;
    Ok(BookOrder {
        line,
        side,
        order_type,
        price,
        volume,
    })
}

impl fmt::Display for BookOrder {
    fn fmt(&self, f: &mut fmt::Formatter<'_>) -> fmt::Result {
        let (side, order_type) = (Code(&SIDES, self.side), Code(&TYPES, self.order_type));
        write!(f, "{side} {order_type}")?;
        if let Some(price) = self.price {
            write!(f, " {}", Price(price))?;
        }
        write!(f, " x {}", self.volume)
    }
}
