//! Kind 5.

use super::desk::{is_open_or_in_minute, marked, parts, retain};
use super::ladder::is_legal;
use super::layout::*;
use super::rules::{ACCEPT, View, WARN_10, WARN_30};
use super::{refuse_unless, security};

pub fn screen(state: State, body: &[u8; 20]) -> Result<u32, u32> {
    let (securities, clock) = (state.securities.len(), *state.clock);
    let (order, channel) = (open_row(body), body[11].into());
    let desk = named(state.desks, short(body, 0))?;
    let security = named(state.securities, order[SECURITY])?;
    refuse_unless(are_codes_listed(&order, channel), 5)?;
    refuse_unless(does_price_fit(&order), 6)?;
    refuse_unless(security::is_sound(security), 8)?;
    let marked = marked(desk, securities, clock).ok_or(8_u32)?;
    let (counters, rows) = parts(desk);
    let is_taken = |row: &Row| row[NUMBER] == order[NUMBER] && is_open_or_in_minute(row, clock);
    refuse_unless(!rows[..marked].iter().any(is_taken), 9)?;
    let view = View {
        session: *state.session,
        clock,
        security,
        rows: &rows[..marked],
        order: &order,
        channel,
    };
    let verdict = view.verdict();
    let counter = match verdict {
        ACCEPT => 0,
        WARN_30 | WARN_10 => 1,
        _ => 2,
    };
    if counter < 2 {
        // Condition 12 is that all 32 are kept, and then no word has changed.
        let kept = retain(&mut rows[..marked], |row| is_open_or_in_minute(row, clock));
        *rows.get_mut(kept).ok_or(12_u32)? = order;
    }
    counters[counter] = counters[counter].saturating_add(1);
    Ok(verdict)
}

/// The row that the order leaves.
fn open_row(body: &[u8; 20]) -> Row {
    let (number, security) = (long(body, 2), short(body, 6));
    let (board, side, order_type) = (body[8].into(), body[9].into(), body[10].into());
    let (price, volume) = (long(body, 12), long(body, 16));
    [
        OPEN, number, security, board, side, order_type, price, volume, 0,
    ]
}

fn are_codes_listed(order: &Row, channel: u32) -> bool {
    order[NUMBER] != 0 && (order[BOARD] | order[SIDE]) <= 1 && order[TYPE] <= MP && channel <= 2
}

fn does_price_fit(order: &Row) -> bool {
    match order[TYPE] {
        LIMIT => is_legal(order[LIMIT_PRICE]),
        _ => order[LIMIT_PRICE] == 0,
    }
}
