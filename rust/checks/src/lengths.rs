//! Bytes that are no whole event: cut short, too long, of no known kind, and
//! anything at all.

use crate::bases::{bases, events_for};
use crate::program::Program;

const LONGEST: usize = 44;

/// Every kind byte at every length, and every good event cut and lengthened.
pub fn fixed(program: &mut Program) {
    for (name, base) in bases() {
        let mut damaged = base.clone();
        damaged[3] = 5;
        for kind in 0..=255 {
            let events: Vec<Vec<u8>> = [0, 1, 2, 255]
                .into_iter()
                .flat_map(|filling| (1..=LONGEST).map(move |length| of(kind, length, filling)))
                .collect();
            program.each(format_args!("{name}, kind {kind}"), &base, &events);
            program.each(
                format_args!("damaged {name}, kind {kind}"),
                &damaged,
                &events,
            );
        }
        for event in events_for(&base) {
            let events: Vec<Vec<u8>> = (0..LONGEST)
                .map(|length| {
                    let mut event = event.clone();
                    event.resize(length, 0);
                    event
                })
                .collect();
            let name = format_args!("{name}, lengths of {}", events::line(&event));
            program.each(name, &base, &events);
        }
    }
}

fn of(kind: u8, length: usize, filling: u8) -> Vec<u8> {
    let mut event = vec![filling; length];
    event[0] = kind;
    event
}

/// Events of known kinds and whole lengths with random bodies, and random bytes.
pub fn random(program: &mut Program) {
    let mut random = program.random();
    let bases = bases();
    for (name, base) in &bases {
        let events: Vec<Vec<u8>> = (0..500)
            .map(|_| {
                let kind = random.below(11) as u8;
                let whole = second::event::length(kind).filter(|_| !random.once_in(6));
                let length = whole.unwrap_or_else(|| random.place(LONGEST));
                let largest = random.pick(&[2, 4, 6, 101, 256]);
                let mut event: Vec<u8> = (0..length).map(|_| random.below(largest) as u8).collect();
                if let Some(first) = event.first_mut() {
                    *first = kind;
                }
                event
            })
            .collect();
        program.each(format_args!("{name}, random bytes"), base, &events);
        program.case(format_args!("{name}, random bytes in turn"), base, &events);
    }
}
