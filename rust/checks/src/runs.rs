//! Many events in one call against one call an event.

use guvontsira::library;
use second::event;

use crate::comparison::Lent;
use crate::histories::sizes;
use crate::layout::{fresh, meaning};
use crate::mixture::MIXTURES;
use crate::program::Program;
use crate::random::Random;
use crate::report::{first_wrong, lines};
use crate::writer::Writer;

/// Stands in the places for answers before the call.
const UNTOUCHED: u32 = 7_777;

pub fn run(program: &mut Program) {
    let mut random = program.random();
    let mixture = &MIXTURES[random.place(MIXTURES.len())];
    let (customers, securities, length) = sizes(&mut random);
    let start = fresh(customers, securities);
    let mut writer = Writer::new(Random::new(random.next()), mixture, customers, securities);
    let history = writer.history(length / 4);
    let whole: Vec<&[u8]> = history
        .iter()
        .map(Vec::as_slice)
        .filter(|event| event::decode(event).is_ok())
        .collect();
    let mut streams = vec![vec![], whole.concat(), history.concat()];
    for kind in 0..=10 {
        // An unknown kind or a cut event at the end.
        let mut cut = whole[..random.place(whole.len())].concat();
        cut.extend([kind, 0, 0, 0]);
        streams.push(cut);
    }
    streams.push(
        (0..random.below(400))
            .map(|_| random.below(11) as u8)
            .collect(),
    );
    for stream in &streams {
        let count = split(stream).len();
        for places in [0, 1, count / 2, count.saturating_sub(1), count, count + 9] {
            one(program, &start, stream, places);
        }
    }
    lists(program, &mut random, &start, &history);
    let mut damaged = start;
    damaged[3] = 9;
    one(program, &damaged, &streams[1], whole.len());
    list(program, &damaged, &whole, whole.len());
}

/// Events by their lengths, broken ones among them.
fn lists(program: &mut Program, random: &mut Random, start: &[u32], history: &[Vec<u8>]) {
    let mut events: Vec<&[u8]> = history.iter().map(Vec::as_slice).collect();
    for broken in [
        &[][..],
        &[0],
        &[10, 1],
        &[2],
        &[2, 2, 2],
        &[6, 0, 0],
        &[8, 0, 0],
        &[9, 0, 0, 0],
    ] {
        events.insert(random.place(events.len()), broken);
    }
    for places in [0, 1, events.len() / 2, events.len(), events.len() + 9] {
        list(program, start, &events, places);
    }
    // The last length goes beyond the bytes, and one more finds none.
    let bytes = events.concat();
    let mut lengths: Vec<usize> = events.iter().map(|event| event.len()).collect();
    lengths.extend([usize::MAX, 3]);
    lengths[events.len() - 1] += 1 + random.place(1_000);
    events.extend([&[][..], &[]]);
    let what = format!("{} events, lengths beyond the bytes", events.len());
    compare(
        program,
        start,
        &what,
        &events,
        events.len(),
        |words, answers| library::run_list(words, &bytes, &lengths, answers),
    );
}

fn list(program: &mut Program, start: &[u32], events: &[&[u8]], places: usize) {
    let bytes = events.concat();
    let lengths: Vec<usize> = events.iter().map(|event| event.len()).collect();
    let what = format!(
        "{} events by their lengths, {places} places for answers",
        events.len()
    );
    compare(program, start, &what, events, places, |words, answers| {
        library::run_list(words, &bytes, &lengths, answers)
    });
}

/// Each event as long as its kind says; what is broken takes all the rest.
fn split(mut rest: &[u8]) -> Vec<&[u8]> {
    let mut events = Vec::new();
    while let Some(&kind) = rest.first() {
        let length = event::length(kind).unwrap_or(rest.len()).min(rest.len());
        let (event, after) = rest.split_at(length);
        events.push(event);
        rest = after;
    }
    events
}

fn one(program: &mut Program, start: &[u32], stream: &[u8], places: usize) {
    let what = format!("{} bytes, {places} places for answers", stream.len());
    compare(
        program,
        start,
        &what,
        &split(stream),
        places,
        |words, answers| library::run(words, stream, answers),
    );
}

/// One call that is handed these events, against one call an event.
fn compare(
    program: &mut Program,
    start: &[u32],
    what: &str,
    events: &[&[u8]],
    places: usize,
    call: impl Fn(&mut [u32], &mut [u32]) -> usize,
) {
    let mut lent = Lent::default();
    lent.set(start);
    let mut answers = Lent::default();
    answers.set(&vec![UNTOUCHED; places]);
    let handled = call(lent.words_mut(), answers.words_mut());

    let mut singly = start.to_vec();
    let mut expected: Vec<u32> = events
        .iter()
        .take(places)
        .map(|event| library::handle(&mut singly, event))
        .collect();
    let count = expected.len();
    expected.resize(places, UNTOUCHED);
    let holds = handled == count
        && answers.words() == expected
        && lent.words() == singly
        && lent.is_guard_whole()
        && answers.is_guard_whole();
    program.holds(format_args!("{what}"), holds, || {
        let securities = start[1] as usize;
        [
            lines(events.to_vec()),
            format!("{handled} events were handled and should be {count}\n"),
            first_wrong(answers.words(), &expected, |place| {
                format!("answer {place}")
            }),
            first_wrong(lent.words(), &singly, |place| meaning(place, securities)),
        ]
        .concat()
    });
}
