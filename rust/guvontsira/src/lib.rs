//! The order gate for brokers on the Stock Exchange of Thailand, called from
//! Rust. The gate itself is a proved static library; this crate only makes its
//! calls safe and gives its numbers types.
//!
//! ```
//! use guvontsira::{Answer, Event, Session, State};
//!
//! let mut state = State::new(8, 16)?;
//! let open = Event::Session { session: Session::Open };
//! assert_eq!(state.send(&open), Answer::Ok);
//! assert_eq!(state.session(), Some(Session::Open));
//! // Order 1 was never entered.
//! let cancel = Event::Cancel { customer: 0, number: 1 };
//! assert_eq!(state.send(&cancel).to_string(), "refused 10");
//! # Ok::<(), guvontsira::Refused>(())
//! ```
//!
//! The archive `libguvontsira.a` is looked for in the folder that the
//! environment variable `GUVONTSIRA_LIB` names, else in `target/staticlib` of
//! the project, where `./build library` puts it.

#![deny(unsafe_code)]
#![warn(missing_debug_implementations)]

mod answer;
mod auction;
mod codes;
mod desk;
mod event;
mod ladder;
mod layout;
#[allow(unsafe_code)]
pub mod library;
mod release;
mod security;
mod state;
mod time;

pub use answer::{Answer, Refused, Rule};
pub use auction::{
    Auction, AuctionAnswer, AuctionOrder, AuctionVolumes, CurrentAuction, MAX_AUCTION_ORDERS,
};
pub use codes::{Board, Channel, Mark, OrderType, Session, Side};
pub use desk::{Desk, Row};
pub use event::{Event, MAX_VOLUME};
pub use ladder::{MAX_POSITION, MAX_PRICE, Nearest, nearest, position, price};
pub use release::{RELEASE, VERSION};
pub use security::{Figures, Prices, Range, Security};
pub use state::State;
pub use time::Time;

/// The README's Rust compiles and runs as printed.
#[cfg(doctest)]
#[doc = include_str!("../../../README.md")]
struct Readme;
