//! The order gate a third time, from the scope paper (01) and requests 1 to 3 of
//! paper 02, tuned for speed: how fast a machine can give these answers.
//!
//! Records are tested and changed where they stand in the lent words. Every kind
//! goes through the paper's table from top to bottom and writes after its last
//! check, no record as a whole; but kind 5 asks condition 12 after it has removed
//! old cancelled rows, and none were removed where it is met. A refusal stands by
//! its number in that table, an answer by the library's number.

mod desk;
mod ladder;
mod layout;
mod order;
mod rules;
mod security;

use desk::{cancel, enter_rest, report_match};
use layout::*;
use order::screen;
use security::{set_figures, set_prices, set_up};

/// A market event, a cancel, a match or a rest was carried out.
const OK: u32 = 0;

/// Handles one event, whatever the words and the bytes.
pub fn handle(words: &mut [u32], event: &[u8]) -> u32 {
    let Some(state) = State::of(words) else {
        return 1;
    };
    let Some((kind, body)) = event.split_first() else {
        return 2;
    };
    // A kind's length stands in its function: it is that of the body's type.
    let handled = match kind {
        1 => body.try_into().map(|body| set_clock(state, body)),
        2 => body.try_into().map(|body| set_session(state, body)),
        3 => body.try_into().map(|body| set_up(state, body)),
        4 => body.try_into().map(|body| set_prices(state, body)),
        5 => body.try_into().map(|body| screen(state, body)),
        6 => body.try_into().map(|body| cancel(state, body)),
        7 => body.try_into().map(|body| report_match(state, body)),
        8 => body.try_into().map(|body| enter_rest(state, body)),
        9 => body.try_into().map(|body| set_figures(state, body)),
        _ => return 3,
    };
    match handled {
        Ok(Ok(answer) | Err(answer)) => answer,
        Err(_) => 2,
    }
}

fn refuse_unless(holds: bool, number: u32) -> Result<(), u32> {
    if holds { Ok(()) } else { Err(number) }
}

fn set_clock(state: State, body: &[u8; 4]) -> Result<u32, u32> {
    let time = long(body, 0);
    refuse_unless(time <= LAST_TIME, 5)?;
    refuse_unless(time >= *state.clock, 7)?;
    *state.clock = time;
    Ok(OK)
}

/// Every record is read, also where the session stays the same.
fn set_session(state: State, body: &[u8; 1]) -> Result<u32, u32> {
    let session = body[0].into();
    refuse_unless(session <= LAST_SESSION, 5)?;
    let is_desk_sound = |desk| desk::marked(desk, state.securities.len(), *state.clock).is_some();
    refuse_unless(state.securities.iter().all(security::is_sound), 8)?;
    refuse_unless(state.desks.iter().all(is_desk_sound), 8)?;
    if session != *state.session {
        *state.session = session;
        for security in state.securities {
            security[MAIN + PROJECTED] = 0;
            security[FOREIGN + PROJECTED] = 0;
        }
        for desk in state.desks {
            // A free row has the type of a limit, and stays behind the others.
            desk::retain(desk::parts(desk).1, |row| row[TYPE] == LIMIT);
        }
    }
    Ok(OK)
}
