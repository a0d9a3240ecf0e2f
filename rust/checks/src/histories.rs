//! Long random histories from fresh states. In most a few customers take part,
//! who come into every corner; in a quarter all of them, over every desk.

use crate::layout::fresh;
use crate::mixture::{MIXTURES, Mixture};
use crate::program::Program;
use crate::random::Random;
use crate::wide::{self, Wide};
use crate::writer::Writer;

/// Histories over every desk in a round, beside one of each mixture.
const WIDE: usize = 2;

/// Customers, securities and events of a random history.
pub fn sizes(random: &mut Random) -> (u32, u32, usize) {
    let length = 200 + random.place(1_800);
    match random.below(12) {
        0 => (1 + random.below(256), 1 + random.below(1_024), length / 2),
        1 => (256, 1 + random.below(16), length / 2),
        2 => (1 + random.below(4), 1_024, length / 2),
        _ => (1 + random.below(6), 1 + random.below(4), length),
    }
}

/// One history of each mixture, and some over every desk; now and then a very
/// long one, or one over the largest state.
pub fn run(program: &mut Program) {
    let mut random = program.random();
    for mixture in &MIXTURES {
        let (customers, securities, length) = sizes(&mut random);
        one(
            program,
            &mut random,
            mixture,
            (customers, securities),
            length,
        );
    }
    for _ in 0..WIDE {
        over_every_desk(program, &mut random);
    }
    let mixture = &MIXTURES[random.place(MIXTURES.len())];
    match random.below(16) {
        0 | 1 => one(program, &mut random, mixture, (256, 1_024), 300),
        2 | 3 => one(program, &mut random, mixture, (3, 2), 20_000),
        _ => {}
    }
}

fn one(
    program: &mut Program,
    random: &mut Random,
    mixture: &'static Mixture,
    (customers, securities): (u32, u32),
    length: usize,
) {
    let mut writer = Writer::new(Random::new(random.next()), mixture, customers, securities);
    let events = writer.history(length);
    program.case(
        format_args!(
            "{}, {customers} customers, {securities} securities",
            mixture.name
        ),
        &fresh(customers, securities),
        &events,
    );
}

fn over_every_desk(program: &mut Program, random: &mut Random) {
    let (customers, securities) = wide::sizes(random);
    let wide = Wide::history(Random::new(random.next()), customers, securities);
    program.case(
        format_args!("every desk, {customers} customers, {securities} securities"),
        &fresh(customers, securities),
        &wide.events,
    );
}
