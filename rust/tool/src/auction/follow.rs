//! A list of orders that come and go: a line for each change, as soon as it is read.

use std::io::Write;
use std::path::Path;

use events::Change;
use guvontsira::{AuctionAnswer, CurrentAuction};

use super::{bad_order, projected, too_many, typed};
use crate::failure::Failure;
use crate::input;

/// As wide as the widest change, which has the greatest price and volume that can be
/// written: a column cannot wait for wider ones to come.
const CHANGE_WIDTH: usize = "add sell limit 42949672.95 x 4294967295".len();

/// As wide as the greatest count, 1024.
const COUNT_WIDTH: usize = 4;

pub fn write(out: &mut impl Write, file: &Path) -> Result<(), Failure> {
    let mut auction = CurrentAuction::new();
    let mut reference = 0;
    for change in input::changes(file)? {
        let change = change?;
        let answer = match &change {
            Change::Add(order) => auction.add(typed(order), reference),
            Change::Take { place } => auction.take(*place, reference),
            Change::Reference { price } => {
                reference = *price;
                continue;
            }
        };
        let count = auction.len();
        let (words, answer) = (change.to_string(), in_words(answer, &change));
        writeln!(
            out,
            "{words:<CHANGE_WIDTH$}  {count:>COUNT_WIDTH$} held  {answer}"
        )?;
        // Whoever sends the next line may be waiting for this one.
        out.flush()?;
    }
    Ok(())
}

fn in_words(answer: AuctionAnswer, change: &Change) -> String {
    match (answer, change) {
        (AuctionAnswer::Price { price, volume }, _) => projected(price, volume),
        (AuctionAnswer::None, _) => "no projected price".into(),
        (AuctionAnswer::Refused(number), change) => {
            format!("refused {number}: {}", reason(number, change))
        }
    }
}

fn reason(number: u8, change: &Change) -> String {
    match (number, change) {
        (14, _) => too_many(),
        (15, Change::Add(order)) => bad_order(order),
        (16, Change::Take { place }) => format!("no order is held at place {place}"),
        _ => unreachable!("only good orders are held, and only a take has a place"),
    }
}
