//! Single words of a sound state set to many values, then an event of every
//! kind against each.

use second::encode;
use second::event::{Event, Order, decode};
use second::ladder::Nearest;

use crate::bases::{SECURITIES, bases, events_for};
use crate::layout::security_start;
use crate::layout::{CLOCK, FIGURES, PRIOR_CLOSE, desk_start, fresh, meaning, row_start};
use crate::prices::{nearest, step};
use crate::program::Program;
use crate::ranges;

/// At, below and above what any field may hold.
const VALUES: [u32; 47] = [
    0,
    1,
    2,
    3,
    4,
    5,
    6,
    12,
    31,
    32,
    33,
    49,
    50,
    51,
    99,
    100,
    101,
    199,
    200,
    201,
    255,
    256,
    257,
    500,
    501,
    1_023,
    1_024,
    1_025,
    50_00,
    50_01,
    400_00,
    400_01,
    60_000,
    60_001,
    65_535,
    65_536,
    9_999_999,
    10_000_000,
    10_000_001,
    10_000_200,
    20_000_000,
    20_000_001,
    86_399_999,
    86_400_000,
    1 << 31,
    u32::MAX - 1,
    u32::MAX,
];

/// In several bands, in the first gap of the ladder and in the last.
const CLOSES_BETWEEN: [u32; 10] = [
    2_01, 4_99, 10_01, 24_99, 65_60, 65_74, 199_99, 400_01, 9_998_001, 9_999_999,
];
const CLOSES_BEYOND: [u32; 4] = [10_000_001, 10_000_200, 1 << 31, u32::MAX];

pub fn run(program: &mut Program) {
    for (name, base) in bases() {
        let events = events_for(&base);
        for place in 0..base.len() {
            let mut values = VALUES.to_vec();
            let (held, clock) = (base[place], base[CLOCK]);
            values.extend([held.wrapping_sub(1), held.wrapping_add(1)]);
            values.extend([clock - clock.min(1), clock, clock + 1]);
            values.sort_unstable();
            values.dedup();
            for value in values {
                let mut damaged = base.clone();
                damaged[place] = value;
                let securities = base[1] as usize;
                let name = format!("{name}, {} is {value}", meaning(place, securities));
                program.each(format_args!("{name}"), &damaged, &events);
                if place < desk_start(securities, 0) {
                    ranges::compare(program, &name, &damaged, 0..=SECURITIES);
                }
            }
        }
    }
    rows_of_each_type(program);
    prior_closes(program);
    figures(program);
    other_counts(program);
    wrong_lengths(program);
}

/// Mark, type, price and cancel time of one row, every choice of one with every
/// choice of the others: whether a row is sound hangs on all four.
fn rows_of_each_type(program: &mut Program) {
    for (name, base) in bases() {
        let events = events_for(&base);
        let clock = base[CLOCK];
        for row in [0, 4] {
            let start = row_start(base[1] as usize, 0, row);
            for mark in 0..=3 {
                for order_type in 0..=5 {
                    for price in [0, 1, 50_00, 50_01, u32::MAX] {
                        for cancel_time in [0, clock, clock + 1] {
                            let mut damaged = base.clone();
                            damaged[start] = mark;
                            damaged[start + 5] = order_type;
                            damaged[start + 6] = price;
                            damaged[start + 8] = cancel_time;
                            program.each(
                                format_args!(
                                    "{name}, row {row} with mark {mark}, type {order_type}, \
                                     price {price}, cancel time {cancel_time}"
                                ),
                                &damaged,
                                &events,
                            );
                        }
                    }
                }
            }
        }
    }
}

/// "Refusal 6 and soundness now take any prior close up to 10,000,000" (paper 02):
/// closes between two steps, with orders at the edges that they draw, and closes
/// beyond, for which every event that reads the security gets 8.
fn prior_closes(program: &mut Program) {
    for (name, base) in bases() {
        for security in 0..SECURITIES as u16 {
            let place = security_start(security.into()) + PRIOR_CLOSE;
            let mut damaged = base.clone();
            for close in CLOSES_BETWEEN {
                damaged[place] = close;
                let mut events = events_for(&base);
                events.extend(orders_at_the_edges(security, close));
                let name = format_args!("{name}, prior close of {security} is {close}");
                program.each(name, &damaged, &events);
            }
            for close in CLOSES_BEYOND {
                damaged[place] = close;
                let events = events_for(&base);
                let eights: Vec<Option<u32>> = events
                    .iter()
                    .map(|event| reads(event, security).then_some(8))
                    .collect();
                let name = format_args!("{name}, prior close of {security} is {close}");
                program.case_expecting(name, &damaged, &events, &eights);
            }
        }
    }
}

/// A prior close and the four words of kind 9, every choice of one with every
/// choice of the others: whether they are sound hangs on all five.
fn figures(program: &mut Program) {
    let security = 2;
    for (name, base) in bases() {
        let events = events_for(&base);
        let eights: Vec<Option<u32>> = events
            .iter()
            .map(|event| reads(event, security).then_some(8))
            .collect();
        let record = security_start(security.into());
        for close in [0, 1, 99, 1_00, 65_60, 10_000_000] {
            for words in figures_around(close) {
                let mut damaged = base.clone();
                damaged[record + PRIOR_CLOSE] = close;
                damaged[record + FIGURES..][..4].copy_from_slice(&words);
                let name = format!("{name}, prior close {close}, figures {words:?}");
                if is_sound(close, words) {
                    program.each(format_args!("{name}"), &damaged, &events);
                } else {
                    program.case_expecting(format_args!("{name}"), &damaged, &events, &eights);
                }
                ranges::compare(program, &name, &damaged, 0..=SECURITIES);
            }
        }
    }
}

fn figures_around(close: u32) -> Vec<[u32; 4]> {
    let mut all = Vec::new();
    for dividend in [0, close.saturating_sub(1), close, u32::MAX] {
        for subscription in [0, 1, u32::MAX] {
            for old in [0, 1, 65_535, 65_536, u32::MAX] {
                for new in [0, 1, 65_535, 65_536, u32::MAX] {
                    all.push([dividend, subscription, old, new]);
                }
            }
        }
    }
    all.sort_unstable();
    all.dedup();
    all
}

/// "they are sound if all zero or as kind 9 could have set them" (paper 02); the
/// event has two bytes each for the shares.
fn is_sound(close: u32, [dividend, subscription, old, new]: [u32; 4]) -> bool {
    let is_zero = [dividend, subscription, old, new] == [0; 4];
    is_zero || dividend < close && (1..=65_535).contains(&old) && new <= 65_535
}

/// Ten and eleven positions up from the lower and down from the upper position,
/// by a customer with rows and by one without.
fn orders_at_the_edges(security: u16, close: u32) -> Vec<Vec<u8>> {
    let Nearest { lower, upper, .. } = nearest(close);
    let edges = [(lower, 10), (lower, 11), (upper, -10), (upper, -11)];
    let order = |customer, channel, price| {
        encode::order(&Order {
            customer,
            number: 99,
            security,
            board: 0,
            side: 0,
            order_type: 0,
            channel,
            price,
            volume: 100,
        })
    };
    edges
        .into_iter()
        .map(|(position, away)| step(position, away))
        .flat_map(|price| [order(0, 1, price), order(1, 2, price)])
        .collect()
}

/// Does an event of this kind read the security's record? Nothing else turns
/// such events of a base back before that.
fn reads(event: &[u8], security: u16) -> bool {
    match decode(event) {
        Ok(Event::Session { .. }) => true,
        Ok(Event::Setup(setup)) => setup.security == security,
        Ok(Event::Prices(prices)) => prices.security == security,
        Ok(Event::Order(order)) => order.security == security,
        Ok(Event::Figures(figures)) => figures.security == security,
        _ => false,
    }
}

/// 17 customers less and 291 securities more take as many words: the header is
/// sound, and what follows it is read in other places.
fn other_counts(program: &mut Program) {
    for (name, base) in bases() {
        let events = events_for(&base);
        let mut many = fresh(18, 1);
        let shared = many.len().min(base.len());
        many[4..shared].copy_from_slice(&base[4..shared]);
        many[2..4].copy_from_slice(&base[2..4]);
        for (customers, securities) in [(18, 1), (1, 292)] {
            many[..2].copy_from_slice(&[customers, securities]);
            program.each(
                format_args!("{name}, as of {customers} customers"),
                &many,
                &events,
            );
        }
    }
}

/// A word too few and a word too many, and hardly any.
fn wrong_lengths(program: &mut Program) {
    for (name, base) in bases() {
        let mut events = events_for(&base);
        events.extend([
            vec![],
            vec![0],
            vec![9, 1],
            vec![10, 1],
            vec![2],
            vec![255; 40],
        ]);
        let mut longer = base.clone();
        longer.push(0);
        let lengths = [0, 1, 2, 3, 4, 21, 312, base.len() - 1, base.len() + 1];
        for length in lengths {
            program.each(
                format_args!("{name}, {length} words"),
                &longer[..length],
                &events,
            );
        }
    }
}
