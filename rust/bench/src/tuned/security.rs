//! A security's record, and the kinds that set its words: 3, 4 and 9.

use super::ladder::{LAST_PRICE, is_legal_or_absent};
use super::layout::*;
use super::{OK, refuse_unless};

pub fn is_sound(security: &Security) -> bool {
    let prices = &security[MAIN..FIGURES];
    are_codes_listed(security[LOT], security[FREE], security[FIRST_DAY])
        && security[PRIOR_CLOSE] <= LAST_PRICE
        && security[IPO] <= LAST_PRICE
        && prices.iter().all(|&price| is_legal_or_absent(price))
        && are_figures_sound(figures(security), security[PRIOR_CLOSE])
}

fn are_codes_listed(lot: u32, free: u32, first_day: u32) -> bool {
    matches!(lot, 1 | 50 | 100) && free <= 1 && first_day <= 1
}

/// "sound if all zero or as kind 9 could have set them"
fn are_figures_sound(figures: [u32; 4], prior_close: u32) -> bool {
    let [dividend, _, old, new] = figures;
    let are_shares_short = old <= u16::MAX.into() && new <= u16::MAX.into();
    figures == [0; 4] || are_shares_short && are_figures_fit(dividend, old, prior_close)
}

/// Not condition 13.
fn are_figures_fit(dividend: u32, old: u32, prior_close: u32) -> bool {
    old != 0 && dividend < prior_close
}

pub fn set_up(state: State, body: &[u8; 13]) -> Result<u32, u32> {
    let security = named(state.securities, short(body, 0))?;
    let (lot, free, first_day) = (body[2].into(), body[3].into(), body[4].into());
    let (prior_close, ipo) = (long(body, 5), long(body, 9));
    refuse_unless(are_codes_listed(lot, free, first_day), 5)?;
    refuse_unless(prior_close <= LAST_PRICE && ipo <= LAST_PRICE, 6)?;
    refuse_unless(is_sound(security), 8)?;
    security[..MAIN].copy_from_slice(&[lot, free, first_day, prior_close, ipo]);
    security[FIGURES..].fill(0);
    Ok(OK)
}

pub fn set_prices(state: State, body: &[u8; 19]) -> Result<u32, u32> {
    let security = named(state.securities, short(body, 0))?;
    let (projected, last_sale) = (long(body, 3), long(body, 7));
    let (bid, offer) = (long(body, 11), long(body, 15));
    let prices = [projected, last_sale, bid, offer];
    refuse_unless(body[2] <= 1, 5)?;
    refuse_unless(prices.into_iter().all(is_legal_or_absent), 6)?;
    refuse_unless(is_sound(security), 8)?;
    let place = board_start(body[2].into());
    security[place..place + 4].copy_from_slice(&prices);
    Ok(OK)
}

pub fn set_figures(state: State, body: &[u8; 14]) -> Result<u32, u32> {
    let security = named(state.securities, short(body, 0))?;
    let (dividend, subscription) = (long(body, 2), long(body, 6));
    let (old, new) = (short(body, 10), short(body, 12));
    refuse_unless(is_sound(security), 8)?;
    refuse_unless(are_figures_fit(dividend, old, security[PRIOR_CLOSE]), 13)?;
    security[FIGURES..].copy_from_slice(&[dividend, subscription, old, new]);
    Ok(OK)
}
