//! Random histories, at whose words again and again a copy is damaged, at desks of
//! a few customers or at any desk of a state in which most have rows, and handed
//! the next events; and the bases with many words damaged.

use second::state::{ROW_WORDS, SECURITY_WORDS};
use second::{encode, gate};

use crate::bases::{bases, events_for};
use crate::histories::sizes;
use crate::layout::{FIGURES, PRIOR_CLOSE, SESSION, fresh, row_start, security_start};
use crate::mixture::MIXTURES;
use crate::program::Program;
use crate::random::Random;
use crate::ranges;
use crate::wide::{self, Wide};
use crate::writer::Writer;

/// Each history is damaged so many times.
const DAMAGES: usize = 40;
/// Over every desk a session event reads many records, so these are fewer.
const WIDE_DAMAGES: usize = 8;

pub fn run(program: &mut Program) {
    let mut random = program.random();
    by_a_few(program, &mut random);
    over_every_desk(program, &mut random);
    many_words(program, &mut random);
}

fn by_a_few(program: &mut Program, random: &mut Random) {
    let mixture = &MIXTURES[random.place(MIXTURES.len())];
    let (customers, securities, _) = sizes(random);
    let mut writer = Writer::new(Random::new(random.next()), mixture, customers, securities);
    let taking_part = writer.customers().to_vec();
    let mut words = fresh(customers, securities);
    for event in writer.history(120) {
        gate::handle(&mut words, &event);
    }
    for damage in 0..DAMAGES {
        let mut damaged = words.clone();
        for _ in 0..1 + random.below(3) {
            let customer = random.pick(&taking_part).into();
            damage_word(random, &mut damaged, securities as usize, customer);
        }
        let events: Vec<Vec<u8>> = (0..10).map(|_| writer.event()).collect();
        let name = format!("{}, damage {damage}", mixture.name);
        program.case(format_args!("{name}, events in turn"), &damaged, &events);
        ranges::compare(program, &name, &damaged, 0..=securities);
        // The events went on from sound words, and so do the next ones.
        for event in &events {
            gate::handle(&mut words, event);
        }
    }
}

/// The two sessions read all records, the damaged one among them.
fn over_every_desk(program: &mut Program, random: &mut Random) {
    let (customers, securities) = wide::sizes(random);
    let mut wide = Wide::history(Random::new(random.next()), customers, securities);
    let mut words = fresh(customers, securities);
    for event in &wide.events {
        gate::handle(&mut words, event);
    }
    for damage in 0..WIDE_DAMAGES {
        let mut damaged = words.clone();
        let customer = random.place(customers as usize);
        damage_word(random, &mut damaged, securities as usize, customer);
        let session = words[SESSION] as u8;
        let mut events = vec![encode::session(session), encode::session((session + 1) % 5)];
        events.extend((0..6).map(|_| wide.writer.event()));
        let name = format!("every desk, {customers} customers, damage {damage}");
        program.each(format_args!("{name}"), &damaged, &events);
        ranges::compare(program, &name, &damaged, 0..=securities);
    }
}

fn many_words(program: &mut Program, random: &mut Random) {
    for (name, mut words) in bases() {
        let events = events_for(&words);
        for word in &mut words[4..] {
            if random.once_in(100) {
                *word = random.word() >> random.below(32);
            }
        }
        program.each(format_args!("{name}, many words damaged"), &words, &events);
    }
}

/// One word anywhere, mostly in the first rows of this customer, mostly by
/// little.
fn damage_word(random: &mut Random, words: &mut [u32], securities: usize, customer: usize) {
    match random.below(10) {
        0 => return damage_prior_close(random, words, securities),
        1 => return damage_figures(random, words, securities),
        _ => {}
    }
    let place = match random.below(8) {
        0 => random.place(words.len()),
        1 | 2 => security_start(random.place(securities)) + random.place(SECURITY_WORDS),
        _ => row_start(securities, customer, random.place(12)) + random.place(ROW_WORDS),
    };
    words[place] = match random.below(5) {
        0 => random.word(),
        1 => words[place].wrapping_add(1),
        2 => words[place].wrapping_sub(1),
        3 => words[random.place(words.len())],
        _ => random.below(4),
    };
}

/// Sound up to 10,000,000, between two steps or not.
fn damage_prior_close(random: &mut Random, words: &mut [u32], securities: usize) {
    let place = security_start(random.place(securities)) + PRIOR_CLOSE;
    words[place] = match random.below(4) {
        0 => random.pick(&[9_999_999, 10_000_000, 10_000_001, 10_000_200]),
        1 => random.below(10_000_001),
        2 => words[place].wrapping_sub(1),
        _ => words[place].wrapping_add(1),
    };
}

/// One of the four words, at an edge of what is sound, or by little.
fn damage_figures(random: &mut Random, words: &mut [u32], securities: usize) {
    let start = security_start(random.place(securities));
    let close = words[start + PRIOR_CLOSE];
    let word = random.place(4);
    let place = start + FIGURES + word;
    words[place] = match (word, random.below(4)) {
        (_, 0) => words[place].wrapping_sub(1),
        (_, 1) => words[place].wrapping_add(1),
        (0, _) => close.wrapping_sub(random.below(2)),
        (1, _) => random.word(),
        _ => random.pick(&[0, 1, 65_535, 65_536]),
    };
}
