//! Under what an event is counted, and the answers that may come there.

use second::codes::{Board, Channel, OrderType, is_lot};
use second::event::{Event, Figures, Order, Setup, decode};
use second::ladder::{self, LAST_PRICE};
use second::state::{Header, MAX_IPO, Security};

use crate::comparison::number;
use crate::range_places::{self, RANGE_PLACES, RANGE_POSSIBLE};

/// Kinds 1 to 9 under their numbers, unknown kinds under 0, no bytes under 10.
const SETUP: usize = 3;
const ORDER: usize = 5;
const FIGURES: usize = 9;
const EMPTY: usize = 10;
/// Whole MP orders are counted apart from the other events of kind 5: only so
/// is it seen that refusal 12 came from them.
const MP_ORDER: usize = 11;
/// Setups that are right but for the prior close, which is between two steps or
/// above 10,000,000.
const CLOSE_BETWEEN: usize = 12;
const CLOSE_BEYOND: usize = 13;
/// Orders whose verdict was warn 10's to give, by a prior close between two
/// steps: so many positions up from the lower, or down from the upper position.
const TEN_UP: usize = 14;
const ELEVEN_UP: usize = 15;
const TEN_DOWN: usize = 16;
const ELEVEN_DOWN: usize = 17;
/// Figures that a sound security does not take: without old shares, with a
/// dividend not below its prior close, or where it has none.
const NO_OLD_SHARES: usize = 18;
const DIVIDEND_TOO_HIGH: usize = 19;
const NO_PRIOR_CLOSE: usize = 20;
/// From here on, orders by where they stand in the day's range.
const IN_RANGE: usize = 21;
pub const PLACES: usize = IN_RANGE + RANGE_PLACES;

/// Is this a place of orders at an edge of the day's range?
#[cfg(test)]
pub fn is_in_range(place: usize) -> bool {
    place >= IN_RANGE
}

#[cfg(test)]
pub const EDGES: [usize; 4] = [TEN_UP, ELEVEN_UP, TEN_DOWN, ELEVEN_DOWN];

/// The answers that each of them can get, by the papers.
pub const POSSIBLE: [&[u32]; PLACES] = possible();

const fn possible() -> [&'static [u32]; PLACES] {
    let mut all: [&[u32]; PLACES] = [&[]; PLACES];
    let (kinds, ranges) = all.split_at_mut(IN_RANGE);
    kinds.copy_from_slice(&OF_KINDS);
    ranges.copy_from_slice(&RANGE_POSSIBLE);
    all
}

const OF_KINDS: [&[u32]; IN_RANGE] = [
    &[1, 3],
    &[0, 1, 2, 5, 7],
    &[0, 1, 2, 5, 8],
    &[0, 1, 2, 4, 5, 6, 8],
    &[0, 1, 2, 4, 5, 6, 8],
    &[
        1, 2, 4, 5, 6, 8, 9, 12, 100, 110, 130, 203, 216, 217, 219, 222, 223,
    ],
    &[0, 1, 2, 4, 5, 8, 10],
    &[0, 1, 2, 4, 5, 8, 10, 11],
    &[0, 1, 2, 4, 5, 6, 8, 10],
    &[0, 1, 2, 4, 8],
    &[1, 2],
    &[1, 4, 5, 6, 8, 9, 12, 100, 219, 222, 223],
    &[0, 8],
    &[6],
    &[100],
    &[110],
    &[100],
    &[110],
    &[13],
    &[13],
    &[13],
];

/// Where an event is counted that got this answer and left these words. A setup
/// leaves the header, an order also every security, and figures leave the prior
/// close, as they met them.
pub fn place(words: &[u32], event: &[u8], answer: u32) -> usize {
    match decode(event) {
        Ok(Event::Setup(setup)) => of_setup(words, &setup).unwrap_or(SETUP),
        Ok(Event::Order(order)) => of_order(words, &order, answer).unwrap_or(ORDER),
        Ok(Event::Figures(figures)) => of_figures(words, &figures).unwrap_or(FIGURES),
        _ => match event.first() {
            None => EMPTY,
            Some(&kind @ 1..=9) => usize::from(kind),
            Some(_) => 0,
        },
    }
}

fn of_setup(words: &[u32], setup: &Setup) -> Option<usize> {
    Header::read(words)?.security_place(setup.security.into())?;
    let is_right =
        is_lot(setup.lot.into()) && setup.free <= 1 && setup.first_day <= 1 && setup.ipo <= MAX_IPO;
    if !is_right {
        return None;
    }
    match setup.prior_close {
        0 => None,
        1..=LAST_PRICE => (!ladder::legal(setup.prior_close)).then_some(CLOSE_BETWEEN),
        _ => Some(CLOSE_BEYOND),
    }
}

/// `None` also where the record is not sound: 8 comes before 13.
fn of_figures(words: &[u32], figures: &Figures) -> Option<usize> {
    let security = security(words, figures.security)?;
    if security.prior_close == 0 {
        Some(NO_PRIOR_CLOSE)
    } else if figures.old == 0 {
        Some(NO_OLD_SHARES)
    } else {
        (figures.dividend >= security.prior_close).then_some(DIVIDEND_TOO_HIGH)
    }
}

fn of_order(words: &[u32], order: &Order, answer: u32) -> Option<usize> {
    use second::answer::Answer::{Accept, Warn10};
    if order.order_type == OrderType::Mp as u8 {
        return Some(MP_ORDER);
    }
    let no_rule_before = [number(Accept), number(Warn10)].contains(&answer);
    if no_rule_before
        && is_for_warn_10(order)
        && let Some(place) = from_adjusted_close(words, order)
    {
        return Some(place);
    }
    let security = security(words, order.security)?;
    range_places::place(&security, order, answer).map(|place| IN_RANGE + place)
}

/// `None` if there is no such security, or its record is not sound.
fn security(words: &[u32], security: u16) -> Option<Security> {
    let place = Header::read(words)?.security_place(security.into())?;
    Security::read(&words[place])
}

fn is_for_warn_10(order: &Order) -> bool {
    order.order_type == OrderType::Limit as u8
        && order.board == Board::Main as u8
        && order.channel != Channel::FrontOffice as u8
}

/// `None` where the reference of warn 10 is no prior close between two steps, or
/// the order does not stand at an edge.
fn from_adjusted_close(words: &[u32], order: &Order) -> Option<usize> {
    let header = Header::read(words)?;
    let security = security(words, order.security)?;
    let is_by_close = security.main.projected == 0 && security.main.last == 0;
    if !header.session.gathers() || !is_by_close {
        return None;
    }
    let close = ladder::nearest(security.prior_close).filter(|close| !close.legal)?;
    let own = ladder::position(order.price)?;
    match (own.checked_sub(close.lower), close.upper.checked_sub(own)) {
        (Some(10), _) => Some(TEN_UP),
        (Some(11), _) => Some(ELEVEN_UP),
        (_, Some(10)) => Some(TEN_DOWN),
        (_, Some(11)) => Some(ELEVEN_DOWN),
        _ => None,
    }
}

pub fn place_words(place: usize) -> String {
    match place {
        0 => "unknown kinds".into(),
        EMPTY => "no bytes".into(),
        MP_ORDER => "MP orders".into(),
        CLOSE_BETWEEN => "setups with a prior close between two steps".into(),
        CLOSE_BEYOND => "setups with a prior close above 10,000,000".into(),
        TEN_UP => "orders ten positions up from an adjusted close".into(),
        ELEVEN_UP => "orders eleven positions up from an adjusted close".into(),
        TEN_DOWN => "orders ten positions down from an adjusted close".into(),
        ELEVEN_DOWN => "orders eleven positions down from an adjusted close".into(),
        NO_OLD_SHARES => "figures without old shares".into(),
        DIVIDEND_TOO_HIGH => "figures with a dividend not below the prior close".into(),
        NO_PRIOR_CLOSE => "figures for a security without a prior close".into(),
        IN_RANGE.. => range_places::words(place - IN_RANGE).into(),
        _ => format!("kind {place}"),
    }
}

#[cfg(test)]
mod tests {
    use second::gate;

    use super::*;
    use crate::layout::fresh;

    /// Where the last of these lines is counted.
    fn last_place(lines: &str) -> usize {
        let mut words = fresh(1, 1);
        let events = events::encode_each(lines).unwrap();
        let places = events.iter().map(|event| {
            let answer = number(gate::handle(&mut words, event));
            place(&words, event, answer)
        });
        places.last().unwrap()
    }

    #[test]
    fn setups_by_their_prior_close() {
        for (line, expected) in [
            ("setup 0 lot 100 close 65.60", CLOSE_BETWEEN),
            ("setup 0 lot 100 close 99999.99", CLOSE_BETWEEN),
            ("setup 0 lot 100 close 100000.01", CLOSE_BEYOND),
            ("setup 0 lot 100", SETUP),
            ("setup 0 lot 100 close 65.50", SETUP),
            ("setup 1 lot 100 close 65.60", SETUP),
            ("setup 0 lot 7 close 100000.01", SETUP),
            ("setup 0 lot 100 close 65.60 ipo 100000.01", SETUP),
        ] {
            assert_eq!(last_place(line), expected, "{line}");
        }
    }

    #[test]
    fn figures_by_what_is_wrong() {
        let market = "setup 0 lot 100 close 50.00\n";
        for (line, expected) in [
            ("figures 0 old 1 new 1 dividend 49.99", FIGURES),
            ("figures 0 old 1 new 1 dividend 50.00", DIVIDEND_TOO_HIGH),
            ("figures 0 old 0 new 1 dividend 50.00", NO_OLD_SHARES),
            ("setup 0 lot 100\nfigures 0 old 0 new 1", NO_PRIOR_CLOSE),
            ("figures 1 old 0 new 1", FIGURES),
        ] {
            let lines = market.to_owned() + line;
            assert_eq!(last_place(&lines), expected, "{line}");
        }
    }

    #[test]
    fn orders_by_an_adjusted_close() {
        let market = "session pre-open\nsetup 0 lot 100 close 65.60\n";
        let order = |words: &str| format!("order 0 no 1 security 0 {words}");
        for (words, expected) in [
            ("main buy limit 68.00 x 100 online", TEN_UP),
            ("main sell limit 68.25 x 100 dma", ELEVEN_UP),
            ("main buy limit 63.25 x 100 online", TEN_DOWN),
            ("main sell limit 63.00 x 100 dma", ELEVEN_DOWN),
            ("main buy limit 65.50 x 100 online", ORDER),
            ("main buy limit 68.25 x 100 front", ORDER),
            ("foreign buy limit 68.25 x 100 online", ORDER),
            ("main buy limit 68.25 x 50 online", ORDER),
            ("main buy mp x 100 online", MP_ORDER),
        ] {
            let line = order(words);
            assert_eq!(last_place(&(market.to_owned() + &line)), expected, "{line}");
        }
        let far = order("main buy limit 68.25 x 100 online");
        for market in [
            "session pre-open\nsetup 0 lot 100 close 65.50\n",
            "session pre-open\nsetup 0 lot 100 close 65.60\nprices 0 main last 65.50\n",
            "session pre-open\nsetup 0 lot 100 close 65.60\nprices 0 main projected 65.50\n",
            "session open\nsetup 0 lot 100 close 65.60\n",
        ] {
            assert_eq!(last_place(&(market.to_owned() + &far)), ORDER, "{market}");
        }
    }
}
