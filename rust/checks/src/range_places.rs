//! Under what an order is counted by where it stands in the day's range.

use second::answer::{Answer, Rule};
use second::codes::{Board, OrderType};
use second::event::Order;
use second::ladder;
use second::range::Range;
use second::state::Security;

use crate::comparison::number;

/// At the floor and one step below it, at the ceiling and one step above it, of
/// ranges from the prior close alone; the same where there are figures; and any
/// order where the floor is above the ceiling.
pub const RANGE_PLACES: usize = 9;
const WITH_FIGURES: usize = 4;
const NOTHING_INSIDE: usize = 8;

const EDGES: [&str; RANGE_PLACES] = [
    "orders at the floor by a prior close",
    "orders one step below the floor by a prior close",
    "orders at the ceiling by a prior close",
    "orders one step above the ceiling by a prior close",
    "orders at the floor by figures",
    "orders one step below the floor by figures",
    "orders at the ceiling by figures",
    "orders one step above the ceiling by figures",
    "orders with a floor above the ceiling",
];

/// The answers of each place. Others are not counted there: an order inside the
/// range may still get any verdict that comes after C.
pub const RANGE_POSSIBLE: [&[u32]; RANGE_PLACES] = [
    &[100],
    &[203],
    &[100],
    &[203],
    &[100],
    &[203],
    &[100],
    &[203],
    &[203],
];

pub fn words(place: usize) -> &'static str {
    EDGES[place]
}

/// `None` where the order is not at an edge, or another rule than C decided.
pub fn place(security: &Security, order: &Order, answer: u32) -> Option<usize> {
    let decided = [Answer::Accept, Answer::Reject(Rule::C)].map(number);
    let is_judged = decided.contains(&answer)
        && order.order_type == OrderType::Limit as u8
        && order.board == Board::Main as u8;
    if !is_judged {
        return None;
    }
    let range = Range::of(security)?;
    if range.floor > range.ceiling {
        return Some(NOTHING_INSIDE);
    }
    let by_figures = if security.figures.is_some() {
        WITH_FIGURES
    } else {
        0
    };
    Some(by_figures + edge(range, order.price)?)
}

/// Where floor and ceiling are one price, that is the floor.
fn edge(range: Range, price: u32) -> Option<usize> {
    let [own, floor, ceiling] = [price, range.floor, range.ceiling].map(ladder::position);
    let (own, floor, ceiling) = (own?, floor?, ceiling?);
    let edges = [floor, floor - 1, ceiling, ceiling + 1];
    edges.into_iter().position(|edge| edge == own)
}

#[cfg(test)]
mod tests {
    use second::gate;

    use super::*;
    use crate::layout::fresh;

    /// The words for where a limit is counted, after these lines.
    fn counted(market: &str, price: &str) -> Option<&'static str> {
        let mut all = fresh(1, 1);
        let order = format!("order 0 no 1 security 0 main buy limit {price} x 100 front");
        let lines = events::encode_each(&format!("session open\n{market}\n{order}")).unwrap();
        let answers: Vec<u32> = lines
            .iter()
            .map(|event| number(gate::handle(&mut all, event)))
            .collect();
        let Ok(second::event::Event::Order(order)) = second::event::decode(lines.last()?) else {
            return None;
        };
        let security = Security::read(&all[4..21])?;
        place(&security, &order, *answers.last()?).map(words)
    }

    #[test]
    fn edges_by_close_and_by_figures() {
        let close = "setup 0 lot 100 close 50.00";
        let figures = "setup 0 lot 100 close 150.00\nfigures 0 old 2 new 3 subscription 10.00";
        for (market, price, expected) in [
            (close, "35.00", Some(EDGES[0])),
            (close, "34.75", Some(EDGES[1])),
            (close, "65.00", Some(EDGES[2])),
            (close, "65.25", Some(EDGES[3])),
            (close, "35.25", None),
            (close, "34.50", None),
            (figures, "46.25", Some(EDGES[4])),
            (figures, "46.00", Some(EDGES[5])),
            (figures, "85.75", Some(EDGES[6])),
            (figures, "86.00", Some(EDGES[7])),
            ("setup 0 lot 100 free close 50.00", "35.00", None),
            ("setup 0 lot 100", "35.00", None),
        ] {
            assert_eq!(counted(market, price), expected, "{market} {price}");
        }
        let nothing = "setup 0 lot 100 close 1.00\nfigures 0 old 1 new 1 dividend 0.97";
        assert_eq!(counted(nothing, "0.01"), Some(EDGES[8]));
    }
}
