//! A customer's desk, and the kinds that change one of its rows: 6, 7 and 8.

use super::ladder::is_legal;
use super::layout::*;
use super::{OK, refuse_unless};

/// How long a cancel is remembered, in milliseconds.
const CANCEL_MEMORY: u32 = 60_000;

/// Counters and rows.
pub fn parts(desk: &mut Desk) -> (&mut [u32], &mut [Row]) {
    let (counters, rows) = desk.split_at_mut(COUNTERS);
    (counters, rows.as_chunks_mut().0)
}

/// How many rows are marked; `None` if the desk is not sound.
pub fn marked(desk: &Desk, securities: usize, clock: u32) -> Option<usize> {
    let rows: &[Row] = desk[COUNTERS..].as_chunks().0;
    let mut rest = rows;
    let mut highest = 0;
    while let [row, after @ ..] = rest
        && row[MARK] != 0
    {
        // A customer's numbers mostly rise, and then no row before has this one.
        if row[NUMBER] > highest {
            highest = row[NUMBER];
        } else if row[NUMBER] == 0 || has_number(&rows[..rows.len() - rest.len()], row[NUMBER]) {
            return None;
        }
        if !is_sound(row, securities as u32, clock) {
            return None;
        }
        rest = after;
    }
    are_zero(rest).then_some(rows.len() - rest.len())
}

fn has_number(rows: &[Row], number: u32) -> bool {
    rows.iter().any(|row| row[NUMBER] == number)
}

/// No branch at a word or a row: the machine reads several words at once, and the
/// 36 of four rows without a loop.
fn are_zero(rows: &[Row]) -> bool {
    let (fours, others) = rows.as_chunks::<4>();
    let bits = fours.iter().fold(0, |bits, four| bits | any_bits(four));
    bits | any_bits(others) == 0
}

fn any_bits(rows: &[Row]) -> u32 {
    let words = rows.as_flattened().iter();
    words.fold(0, |bits, word| bits | word)
}

/// A marked row, whatever its number.
fn is_sound(row: &Row, securities: u32, clock: u32) -> bool {
    let last_time = if row[MARK] == OPEN { 0 } else { clock };
    row[MARK] <= CANCELLED
        && row[SECURITY] < securities
        && (row[BOARD] | row[SIDE]) <= 1
        && (1..=MAX_VOLUME).contains(&row[VOLUME])
        && match row[TYPE] {
            LIMIT => row[CANCEL_TIME] <= last_time && is_legal(row[LIMIT_PRICE]),
            ATO | ATC | MP => row[MARK] == OPEN && row[CANCEL_TIME] | row[LIMIT_PRICE] == 0,
            _ => false,
        }
}

/// Of a sound marked row: open, or cancelled at most 60,000 ms ago.
pub fn is_open_or_in_minute(row: &Row, clock: u32) -> bool {
    // Both are asked: which rows are open follows no pattern, which are either does.
    (row[MARK] == OPEN) | (clock - row[CANCEL_TIME] <= CANCEL_MEMORY)
}

/// Keeps some rows and says how many. They close up; the places left are zero.
pub fn retain(rows: &mut [Row], keep: impl Fn(&Row) -> bool) -> usize {
    let mut kept = 0;
    for index in 0..rows.len() {
        if keep(&rows[index]) {
            if kept < index {
                rows[kept] = rows[index];
            }
            kept += 1;
        }
    }
    rows[kept..].fill([0; ROW_WORDS]);
    kept
}

pub fn cancel(state: State, body: &[u8; 6]) -> Result<u32, u32> {
    let clock = *state.clock;
    let (rows, index) = find_open(state, body, true)?;
    if rows[index][TYPE] == LIMIT {
        rows[index][MARK] = CANCELLED;
        rows[index][CANCEL_TIME] = clock;
    } else {
        remove(rows, index);
    }
    Ok(OK)
}

pub fn report_match(state: State, body: &[u8; 10]) -> Result<u32, u32> {
    let volume = long(body, 6);
    let (rows, index) = find_open(state, body, true)?;
    let left = rows[index][VOLUME].checked_sub(volume).ok_or(11_u32)?;
    refuse_unless(volume != 0, 11)?;
    if left > 0 {
        rows[index][VOLUME] = left;
    } else {
        remove(rows, index);
    }
    Ok(OK)
}

pub fn enter_rest(state: State, body: &[u8; 10]) -> Result<u32, u32> {
    let price = long(body, 6);
    let (rows, index) = find_open(state, body, is_legal(price))?;
    refuse_unless(rows[index][TYPE] == MP, 10)?;
    rows[index][TYPE] = LIMIT;
    rows[index][LIMIT_PRICE] = price;
    Ok(OK)
}

/// Conditions 4 to 10 of an event that begins with a customer and a number: the
/// marked rows, and which of them is the open one.
fn find_open<'a, const N: usize>(
    state: State<'a>,
    body: &[u8; N],
    does_price_fit: bool,
) -> Result<(&'a mut [Row], usize), u32> {
    let desk = named(state.desks, short(body, 0))?;
    let number = long(body, 2);
    refuse_unless(number != 0, 5)?;
    refuse_unless(does_price_fit, 6)?;
    let count = marked(desk, state.securities.len(), *state.clock).ok_or(8_u32)?;
    let rows = &mut parts(desk).1[..count];
    let is_it = |row: &Row| row[NUMBER] == number && row[MARK] == OPEN;
    let index = rows.iter().position(is_it).ok_or(10_u32)?;
    Ok((rows, index))
}

fn remove(marked: &mut [Row], index: usize) {
    marked.copy_within(index + 1.., index);
    marked[marked.len() - 1] = [0; ROW_WORDS];
}
