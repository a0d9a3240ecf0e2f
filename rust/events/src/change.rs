//! What comes to a list of orders that is kept with its price: a line a change, and lines
//! for the reference price.

use std::fmt;

use crate::book::{BookOrder, REFERENCE, order};
use crate::convert::Wrong;
use crate::expected::{AnyOf, expected};
use crate::format::Price;
use crate::line_words::LineWords;
use crate::words::SIDES;

const ADD: &str = "add";
const TAKE: &str = "take";

/// What a line begins with.
const FIRST_WORDS: [&str; 3] = [ADD, TAKE, REFERENCE];

/// What a line says. `Display` gives the line.
#[derive(Clone, Copy, Debug, PartialEq, Eq)]
pub enum Change {
    /// The order is added at the end.
    Add(BookOrder),
    /// The order at the place is taken out.
    Take {
        /// From 0.
        place: usize,
    },
    /// The reference of the changes after this line.
    Reference {
        /// In satang.
        price: u32,
    },
}

/// What one line says, by its number from 1; `None` for a line with nothing but a
/// comment. A line is read alone, since the next one may not be there yet.
pub fn change(text: &str, line: usize) -> Result<Option<Change>, Wrong> {
    read(text, line).map_err(|reason| Wrong { line, reason })
}

fn read(text: &str, line: usize) -> Result<Option<Change>, String> {
    let mut words = LineWords::of(text);
    let Some(first) = words.next() else {
        return Ok(None);
    };
    let change = match first {
        ADD => {
            let side = words.read(AnyOf(SIDES.words), |word| SIDES.code(word))?;
            Change::Add(order(side, line, &mut words)?)
        }
        TAKE => Change::Take {
            place: words.number("a place", u32::MAX)? as usize,
        },
        REFERENCE => Change::Reference {
            price: words.price()?,
        },
        _ => return Err(expected(first, AnyOf(&FIRST_WORDS))),
    };
    words.end()?;
    Ok(Some(change))
}

impl fmt::Display for Change {
    fn fmt(&self, f: &mut fmt::Formatter<'_>) -> fmt::Result {
        match self {
            Change::Add(order) => write!(f, "{ADD} {order}"),
            Change::Take { place } => write!(f, "{TAKE} {place}"),
            Change::Reference { price } => write!(f, "{REFERENCE} {}", Price(*price)),
        }
    }
}
