//! Rule C (paper 02, request 3): orders on both sides of the floor and of the
//! ceiling, from prior closes and figures at every edge. The answers follow from
//! the fraction that the paper gives for the base, so each case says them.

use second::encode;
use second::event::{Figures, Order, Setup};
use second::range;

use crate::layout::fresh;
use crate::prices::{position_at_or_below, step};
use crate::program::Program;
use crate::ranges::{CLOSES, SHARES, SUBSCRIPTIONS};

const OK: u32 = 0;
const ACCEPT: u32 = 100;
const REJECT_C: u32 = 203;
/// A session, and a channel in which no rule but C looks at the price.
const ENTRIES: [(u8, u8); 5] = [(1, 0), (2, 0), (2, 1), (2, 2), (4, 0)];

pub fn run(program: &mut Program) {
    let mut entries = ENTRIES.iter().cycle();
    for close in CLOSES {
        for figures in figures_by(close) {
            let &entry = entries.next().expect("they come again and again");
            one(program, close, figures, entry);
        }
    }
}

/// None at all, and every choice that a close above 0 takes.
fn figures_by(close: u32) -> Vec<Option<Figures>> {
    let mut all = vec![None];
    if close == 0 {
        return all;
    }
    let dividends = [0, 1, close / 2, close.saturating_sub(3), close - 1];
    for dividend in dividends.into_iter().filter(|&dividend| dividend < close) {
        for subscription in SUBSCRIPTIONS
            .into_iter()
            .chain([close - 1, close, close + 1])
        {
            for old in SHARES.into_iter().filter(|&old| old > 0) {
                all.extend(SHARES.map(|new| {
                    Some(Figures {
                        security: 0,
                        dividend,
                        subscription,
                        old: old as u16,
                        new: new as u16,
                    })
                }));
            }
        }
    }
    all
}

fn one(program: &mut Program, close: u32, figures: Option<Figures>, (session, channel): (u8, u8)) {
    let setup = Setup {
        security: 0,
        lot: 100,
        free: 0,
        first_day: 0,
        prior_close: close,
        ipo: 0,
    };
    let mut events = vec![encode::session(session), encode::setup(&setup)];
    events.extend(figures.as_ref().map(encode::figures));
    let mut answers = vec![Some(OK); events.len()];
    for (number, price) in (1..).zip(prices(close, &events)) {
        for board in [0, 1] {
            let is_rejected = board == 0 && is_outside(close, figures, price);
            answers.push(Some(if is_rejected { REJECT_C } else { ACCEPT }));
            events.push(encode::order(&Order {
                customer: 0,
                number: number + 100 * u32::from(board),
                security: 0,
                board,
                side: (close % 2) as u8,
                order_type: 0,
                channel,
                price,
                volume: 100,
            }));
        }
    }
    let name = format_args!("close {close}, {figures:?}, session {session}, channel {channel}");
    program.case_expecting(name, &fresh(1, 1), &events, &answers);
}

/// Up to two steps from the edges that the second implementation gives after
/// these events; around the close where there is no range.
fn prices(close: u32, events: &[Vec<u8>]) -> Vec<u32> {
    let mut words = fresh(1, 1);
    for event in events {
        second::gate::handle(&mut words, event);
    }
    let edges = [range::floor(&words, 0), range::ceiling(&words, 0)];
    let edges = edges.map(|edge| if edge == 0 { close } else { edge });
    let around = |edge| [-2, -1, 0, 1, 2].map(|away| step(position_at_or_below(edge), away));
    let mut prices = edges.map(around).concat();
    prices.sort_unstable();
    prices.dedup();
    prices
}

/// Of a legal price: is it outside 70% to 130% of the base, both sides taken times
/// the shares? The ceiling is no less than 0.01.
fn is_outside(close: u32, figures: Option<Figures>, price: u32) -> bool {
    let [close, price] = [close, price].map(u128::from);
    if close < 1_00 {
        return close != 0 && price > 2 * close;
    }
    let (base, shares) = match figures {
        None => (close, 1),
        Some(figures) => {
            let [dividend, subscription] = [figures.dividend, figures.subscription].map(u128::from);
            let [old, new] = [figures.old, figures.new].map(u128::from);
            let after_right = (close - dividend) * old + subscription * new;
            (after_right.min(close * (old + new)), old + new)
        }
    };
    let price_of_shares = price * shares;
    10 * price_of_shares < 7 * base || (price > 1 && 10 * price_of_shares > 13 * base)
}
