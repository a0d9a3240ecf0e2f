//! Events of the order gate as text, one line an event; an auction's book, one line an
//! order; and the changes of an auction's list, one line a change.
//!
//! ```text
//! # What follows a number sign is a comment.
//! clock 09:55:00.000
//! session open
//! setup 0 lot 100 free first-day close 65.60 ipo 12.00
//! prices 0 main projected - last 50.00 bid 49.75 offer 50.25
//! order 0 no 1 security 0 main buy limit 50.00 x 100 online
//! order 0 no 5 security 0 foreign sell atc x 100 dma
//! cancel 0 no 1
//! match 0 no 5 x 100
//! rest 0 no 6 at 50.25
//! figures 0 old 2 new 3 dividend - subscription 10.00
//! ```
//!
//! - `clock`: hours, minutes and seconds; the milliseconds may be left out.
//! - `session`: `closed`, `pre-open`, `open`, `break` or `pre-close`.
//! - `setup`, with the security: `lot`; then in any order `free`, `first-day`,
//!   `close` and `ipo`. A flag left out is 0, a price left out is absent.
//! - `prices`, with the security: the board, `main` or `foreign`; then in any
//!   order `projected`, `last`, `bid` and `offer`. One left out is absent,
//!   since the event replaces all four.
//! - `order`, with the customer: `no` and the order number; `security`; the
//!   board; `buy` or `sell`; `limit` and a price, or `ato`, `atc` or `mp`;
//!   `x` and the volume; the channel, `front`, `online` or `dma`.
//! - `cancel`, `match` and `rest`, with the customer: `no` and the order number;
//!   for a match `x` and the volume, for a rest `at` and the price.
//! - `figures`, with the security: `old` and the old shares; `new` and the new
//!   ones; then in any order `dividend` and `subscription`. One left out is
//!   absent.
//!
//! Prices are in baht with two decimals, and `-` is an absent one.
//!
//! What the gate would turn back can be written too. A code outside its list
//! is a number: `session 7`, `free 2`, `first-day 2`, `board 9`, `side 2`,
//! `type 4`, `channel 3`. A price may follow every type of order, and a limit
//! and a rest may have the price `-`. So every event of a known kind and a whole
//! length has a line, and the line gives its bytes back. Last, `bytes 0a ff`
//! stands for those bytes as they are, an unknown kind or a part of an event.
//!
//! An auction's book is another text, with the same words, comments and prices:
//!
//! ```text
//! reference 49.50
//! buy limit 49.00 x 900
//! sell ato x 600
//! ```
//!
//! - `buy` or `sell`; `limit` and a price, or `ato` or `atc`; `x` and the volume.
//! - `reference` and a price, on one line at most; without it the reference is 0.
//!
//! Orders that come and go are a third text:
//!
//! ```text
//! reference 49.50
//! add buy limit 49.00 x 900
//! add sell ato x 600
//! take 0
//! ```
//!
//! - `add`, and the words of an order of a book: it is added at the end.
//! - `take` and a place, from 0: the order there is taken out.
//! - `reference` and a price, on any number of lines: it is the reference of the changes
//!   after it, and 0 that of those before the first.

#![forbid(unsafe_code)]

mod book;
mod change;
mod convert;
mod expected;
mod format;
mod line_words;
mod parse;
mod values;
pub mod words;

pub use book::{Book, BookOrder, book};
pub use change::{Change, change};
pub use convert::{Broken, Wrong, decode, encode, encode_each, line, lines, split, text};
pub use expected::{AnyOf, expected};
pub use format::{Code, Price};
pub use parse::parse;
pub use second::event::{Event, Figures, Order, Prices, Setup};
pub use values::{number, satang};
