//! Rules Q, warn 30 and warn 10: orders on both sides of each bound, of a free
//! security, online or DMA, from every reference price up to 400.00 and many
//! above, whatever the reference is taken from. At every seventh of these prices
//! also by the front office, and of a security that is not free: there C draws
//! the bounds of 70% and 130% from the prior close.

use second::encode;
use second::event::{Order, Prices, Setup};
use second::ladder::{POSITIONS, price};

use crate::layout::fresh;
use crate::prices::{position_at_or_below, step};
use crate::program::Program;

/// The prices an order may be compared with, those looked at first in front.
#[derive(Clone, Copy, Debug, PartialEq, PartialOrd)]
enum Source {
    OwnProjected,
    OwnLast,
    MainLast,
    FirstDayIpo,
    PriorClose,
    /// Not a first day: no reference for any rule.
    OtherIpo,
}

const SOURCES: [Source; 6] = [
    Source::OwnProjected,
    Source::OwnLast,
    Source::MainLast,
    Source::FirstDayIpo,
    Source::PriorClose,
    Source::OtherIpo,
];

/// What the rules look at beside the price.
#[derive(Clone, Copy, Debug, PartialEq)]
enum Pass {
    /// Online or DMA, which all three rules look at.
    Free,
    FreeFrontOffice,
    NotFree,
}

impl Pass {
    /// Channels take turns with the position, apart from the side.
    fn channel(self, turn: u32) -> u8 {
        let channel = match self {
            Pass::Free => 1 + turn / 2 % 2,
            Pass::FreeFrontOffice => 0,
            Pass::NotFree => turn % 3,
        };
        channel as u8
    }
}

pub fn run(program: &mut Program) {
    let positions = positions();
    for &position in &positions {
        from_position(program, position, Pass::Free);
    }
    // A step without 2 and 3 in it: sides and channels take turns here too.
    for &position in positions.iter().step_by(7) {
        from_position(program, position, Pass::FreeFrontOffice);
        from_position(program, position, Pass::NotFree);
    }
}

/// Every position up to 400.00 and a little beyond, some above, and the last.
pub fn positions() -> Vec<u32> {
    let low = 1..=1_330;
    let high = (1_331..POSITIONS - 30).step_by(997);
    let last = POSITIONS - 30..=POSITIONS;
    low.chain(high).chain(last).collect()
}

/// With this position's price as the reference, from every source.
fn from_position(program: &mut Program, position: u32, pass: Pass) {
    let start = fresh(1, 1);
    for (turn, source) in (position..).zip(SOURCES) {
        for session in [1, 2, 4] {
            for board in [0, 1] {
                let mut events = market(source, board, session, position, pass);
                events.extend(orders(position, board, pass.channel(turn)));
                program.case(
                    format_args!("position {position}, {source:?}, session {session}, {pass:?}"),
                    &start,
                    &events,
                );
            }
        }
    }
}

/// The source has the reference price, and all looked at later have another.
fn market(source: Source, board: u8, session: u8, position: u32, pass: Pass) -> Vec<Vec<u8>> {
    let from = |asked: Source| {
        if asked < source {
            0
        } else if asked == source {
            step(position, 0)
        } else {
            step(position, 25)
        }
    };
    let ipo = match source {
        Source::OtherIpo => from(Source::OtherIpo),
        _ => from(Source::FirstDayIpo),
    };
    let setup = encode::setup(&Setup {
        security: 0,
        lot: 1,
        free: u8::from(pass != Pass::NotFree),
        first_day: u8::from(source != Source::OtherIpo),
        prior_close: from(Source::PriorClose),
        ipo,
    });
    let prices = |board, projected, last| {
        encode::prices(&Prices {
            security: 0,
            board,
            projected,
            last,
            bid: 0,
            offer: 0,
        })
    };
    let own = prices(board, from(Source::OwnProjected), from(Source::OwnLast));
    let mut events = vec![encode::session(session), setup];
    if board == 1 {
        events.push(prices(0, step(position, -25), from(Source::MainLast)));
    }
    events.push(own);
    events
}

/// Limits around every bound that a rule draws from the reference. At most 32,
/// as many as a desk has rows.
fn orders(position: u32, board: u8, channel: u8) -> Vec<Vec<u8>> {
    let reference = price(position).expect("a position of the ladder");
    let percent = |percent: u64| {
        let bound = u64::from(reference) * percent / 100;
        position_at_or_below(bound.min(u64::from(u32::MAX)) as u32)
    };
    let around = |position: u32| (-1..=2).map(move |away| step(position, away));
    let bounds = [50, 70, 130, 150].map(percent);
    let far = [-11, -10, 10, 11].map(|away| step(position, away));
    bounds
        .into_iter()
        .flat_map(around)
        .chain(far)
        .zip(1..)
        .map(|(price, number)| {
            encode::order(&Order {
                customer: 0,
                number,
                security: 0,
                board,
                // One side only: a buy and a sell online would meet.
                side: (position % 2) as u8,
                order_type: 0,
                channel,
                price,
                volume: 1,
            })
        })
        .collect()
}
