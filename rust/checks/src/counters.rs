//! Counters that are full, or nearly.

use crate::layout::{desk_start, fresh};
use crate::program::Program;

const SECURITIES: u32 = 1;

/// Two orders that are accepted, two warned, two rejected, and others that count
/// nothing.
const EVENTS: &str = "\
session open
setup 0 lot 100 free
prices 0 main last 50.00 bid 49.75 offer 50.25
order 0 no 1 security 0 main buy limit 50.00 x 100 front
order 0 no 2 security 0 main buy mp x 100 front
order 0 no 3 security 0 main buy limit 99.00 x 100 front
order 0 no 4 security 0 main buy limit 9.00 x 100 front
order 0 no 5 security 0 main buy limit 50.00 x 50 front
order 0 no 6 security 0 main buy ato x 100 front
order 0 no 1 security 0 main buy limit 50.00 x 100 front
cancel 0 no 1
match 0 no 3 x 100
rest 0 no 2 at 50.50
session break
order 0 no 7 security 0 main buy limit 50.00 x 100 online
";

pub fn run(program: &mut Program) {
    let events = events::encode_each(EVENTS).unwrap_or_else(|wrong| panic!("{wrong}"));
    let values = [0, 1 << 31, u32::MAX - 2, u32::MAX - 1, u32::MAX];
    for accepted in values {
        for warned in values {
            for rejected in values {
                let mut start = fresh(1, SECURITIES);
                let counters = [accepted, warned, rejected];
                start[desk_start(SECURITIES as usize, 0)..][..3].copy_from_slice(&counters);
                program.case(format_args!("counters {counters:?}"), &start, &events);
            }
        }
    }
}
