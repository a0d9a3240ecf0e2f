//! The day program's listing.

use std::fmt::Write;

use crate::answer::Answer;
use crate::event;
use crate::gate;
use crate::state::{DESK_WORDS, HEADER_WORDS, SECURITY_WORDS};

const CUSTOMERS: u32 = 8;
const SECURITIES: u32 = 16;
const WORDS: usize =
    HEADER_WORDS + SECURITY_WORDS * SECURITIES as usize + DESK_WORDS * CUSTOMERS as usize;

/// So many bytes of the input are read; what follows is as if it were not there.
pub const INPUT_LIMIT: usize = 65_536;

const OPENING: &str = "screen 8 16\n";

/// The whole output for these bytes of events, every line ended by a newline.
pub fn listing(input: &[u8]) -> String {
    let mut words = [0; WORDS];
    gate::fresh(&mut words, CUSTOMERS, SECURITIES);

    let mut out = String::from(OPENING);
    let mut rest = &input[..input.len().min(INPUT_LIMIT)];
    let mut index = 0;
    while let Some(&kind) = rest.first() {
        // An unknown kind or an event cut short takes all that is left, and
        // the gate turns it back with 3 or 2.
        let length = event::length(kind).unwrap_or(rest.len()).min(rest.len());
        let (event, after) = rest.split_at(length);
        let answer = gate::handle(&mut words, event);
        writeln!(out, "{index} {kind} {answer}").expect("writing to a string cannot fail");
        if matches!(answer, Answer::Refused(2 | 3)) {
            break;
        }
        rest = after;
        index += 1;
    }
    out
}
