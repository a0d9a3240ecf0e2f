//! Demand 3: each customer's answers and desk and the market's words are those of
//! the lone run; and however the events of other customers, and of nobody, are
//! changed, added, dropped or moved, they stay.

use guvontsira::library;
use second::lone::{LoneRun, Owner, belongs};
use second::state::DESK_WORDS;

use crate::comparison::number;
use crate::layout::{desk_start, fresh, meaning};
use crate::mixture::MIXTURES;
use crate::program::Program;
use crate::random::Random;
use crate::report::{first_wrong, lines};
use crate::shrink::shrink;
use crate::wide::{self, Wide};
use crate::writer::Writer;

/// What demand 3 compares.
#[derive(Clone, Debug, PartialEq, Eq)]
struct Seen {
    answers: Vec<u32>,
    market: Vec<u32>,
    desk: Vec<u32>,
}

/// A whole history in the gate: every answer, and the words in the end.
struct Ran {
    answers: Vec<u32>,
    words: Vec<u32>,
}

impl Ran {
    fn new(customers: u32, securities: u32, events: &[Vec<u8>]) -> Self {
        let mut words = fresh(customers, securities);
        let answers = events
            .iter()
            .map(|event| library::handle(&mut words, event))
            .collect();
        Ran { answers, words }
    }
}

#[derive(Clone, Copy)]
struct View {
    customers: u32,
    securities: u32,
    customer: u32,
}

impl View {
    fn is_own(&self, event: &[u8]) -> bool {
        match belongs(event, self.customers) {
            Owner::Market => true,
            Owner::Customer(customer) => customer == self.customer,
            Owner::Nobody => false,
        }
    }

    /// What the customer sees of a whole history in the gate.
    fn of_gate(&self, events: &[Vec<u8>]) -> Seen {
        self.of(&Ran::new(self.customers, self.securities, events), events)
    }

    fn of(&self, ran: &Ran, events: &[Vec<u8>]) -> Seen {
        let securities = self.securities as usize;
        let desk = desk_start(securities, self.customer as usize);
        let answered = events.iter().zip(&ran.answers);
        let own = answered.filter(|(event, _)| self.is_own(event));
        Seen {
            answers: own.map(|(_, &answer)| answer).collect(),
            market: ran.words[..desk_start(securities, 0)].to_vec(),
            desk: ran.words[desk..][..DESK_WORDS].to_vec(),
        }
    }

    /// What the lone run gives for the same history.
    fn of_lone_run(&self, events: &[Vec<u8>]) -> Seen {
        let mut run = LoneRun::new(self.customers, self.securities, self.customer);
        let own = events.iter().filter(|event| self.is_own(event));
        Seen {
            answers: own.map(|event| number(run.handle(event))).collect(),
            market: run.market_words(),
            desk: run.desk_words(),
        }
    }
}

/// A history, events to add to it, and the customers for whom it is varied.
struct Subject {
    customers: u32,
    securities: u32,
    history: Vec<Vec<u8>>,
    added: Vec<Vec<u8>>,
    watched: Vec<u16>,
}

impl Subject {
    fn view(&self, customer: u32) -> View {
        View {
            customers: self.customers,
            securities: self.securities,
            customer,
        }
    }
}

/// One history over every desk, and three times as many by a few.
pub fn run(program: &mut Program) {
    let mut random = program.random();
    let subject = over_every_desk(&mut random);
    one(program, &mut random, &subject);
    for _ in 0..3 {
        let subject = by_a_few(&mut random);
        one(program, &mut random, &subject);
    }
}

fn one(program: &mut Program, random: &mut Random, subject: &Subject) {
    every_customer(program, subject);
    for &customer in &subject.watched {
        let view = subject.view(customer.into());
        let original = view.of_gate(&subject.history);
        compare(program, view, &subject.history, &original);
        for _ in 0..4 {
            let varied = vary(random, &view, &subject.history, &subject.added);
            compare(program, view, &varied, &original);
        }
    }
}

/// The history as it is, for each customer of the state.
fn every_customer(program: &mut Program, subject: &Subject) {
    let events = &subject.history;
    let ran = Ran::new(subject.customers, subject.securities, events);
    let unlike = (0..subject.customers)
        .map(|customer| subject.view(customer))
        .find(|view| view.of(&ran, events) != view.of_lone_run(events));
    match unlike {
        Some(view) => compare(program, view, events, &view.of_gate(events)),
        None => program.holds(format_args!("every customer"), true, String::new),
    }
}

fn by_a_few(random: &mut Random) -> Subject {
    let mixture = &MIXTURES[random.place(MIXTURES.len())];
    let (customers, securities) = match random.below(10) {
        0 => (256, 1 + random.below(4)),
        1 => (2, 1 + random.below(1_024)),
        _ => (2 + random.below(5), 1 + random.below(3)),
    };
    let mut writer = Writer::new(Random::new(random.next()), mixture, customers, securities);
    let length = 100 + random.place(500);
    let history = writer.history(length);
    // Others' events to add, by those who take part and by more.
    let mut spare = Writer::new(Random::new(random.next()), mixture, customers, securities);
    let mut added = spare.history(length / 2);
    added.extend((0..length / 2).map(|_| writer.event()));
    // Two who take part, and one who may not.
    let watched = vec![
        random.pick(writer.customers()),
        random.pick(writer.customers()),
        random.below(customers) as u16,
    ];
    Subject {
        customers,
        securities,
        history,
        added,
        watched,
    }
}

fn over_every_desk(random: &mut Random) -> Subject {
    let (customers, securities) = wide::sizes(random);
    let mut wide = Wide::history(Random::new(random.next()), customers, securities);
    let added = (0..300).map(|_| wide.writer.event()).collect();
    // One whose desk was filled, and two others.
    let watched = vec![
        random.pick(&wide.full),
        random.below(customers) as u16,
        random.below(customers) as u16,
    ];
    Subject {
        customers,
        securities,
        history: wide.events,
        added,
        watched,
    }
}

/// The same own events in the same order, and others of any sort between them.
fn vary(random: &mut Random, view: &View, history: &[Vec<u8>], added: &[Vec<u8>]) -> Vec<Vec<u8>> {
    let is_other = |event: &&Vec<u8>| !view.is_own(event);
    let mut others: Vec<Vec<u8>> = history.iter().filter(is_other).cloned().collect();
    match random.below(4) {
        0 => others.clear(),
        1 => others.retain(|_| random.once_in(2)),
        _ => {}
    }
    if random.once_in(2) {
        others.extend(added.iter().filter(is_other).cloned());
    }
    if random.once_in(2) {
        for event in &mut others {
            change(random, event);
        }
        others.retain(|event| !view.is_own(event));
    }
    if random.once_in(2) {
        random.shuffle(&mut others);
    }
    let own: Vec<Vec<u8>> = history
        .iter()
        .filter(|event| view.is_own(event))
        .cloned()
        .collect();
    merge(random, own, others)
}

/// Another byte now and then, and now and then another length.
fn change(random: &mut Random, event: &mut Vec<u8>) {
    if event.len() > 1 && random.once_in(3) {
        let place = 1 + random.place(event.len() - 1);
        event[place] = random.pick(&[0, 1, 2, 3, 5, 100, 255]);
    }
    if random.once_in(40) {
        event.resize(random.place(30), 0);
    }
}

/// Both lists in one, each in its order, with others in bursts.
fn merge(random: &mut Random, own: Vec<Vec<u8>>, others: Vec<Vec<u8>>) -> Vec<Vec<u8>> {
    let mut merged = Vec::with_capacity(own.len() + others.len());
    let (mut own, mut others) = (own.into_iter(), others.into_iter());
    while own.len() + others.len() > 0 {
        let left = own.len() + others.len();
        let burst = 1 + random.place(8);
        if random.place(left) < own.len() {
            merged.extend(own.by_ref().take(burst));
        } else {
            merged.extend(others.by_ref().take(burst));
        }
    }
    merged
}

fn compare(program: &mut Program, view: View, events: &[Vec<u8>], original: &Seen) {
    let gate = view.of_gate(events);
    let lone = view.of_lone_run(events);
    let name = format_args!(
        "customer {} of {}, {} securities",
        view.customer, view.customers, view.securities
    );
    program.holds(name, gate == lone && gate == *original, || {
        let short = shrink(events, |events| {
            view.of_gate(events) != view.of_lone_run(events)
        });
        let (gate, lone) = (view.of_gate(&short), view.of_lone_run(&short));
        lines(short.iter().map(Vec::as_slice)) + &difference(&view, &gate, &lone)
    });
}

/// The gate beside the lone run. Nothing is wrong there where only the original
/// history was answered in another way.
fn difference(view: &View, gate: &Seen, lone: &Seen) -> String {
    let securities = view.securities as usize;
    let desk = desk_start(securities, view.customer as usize);
    [
        first_wrong(&gate.answers, &lone.answers, |place| {
            format!("the answer to own event {place}")
        }),
        first_wrong(&gate.market, &lone.market, |place| {
            meaning(place, securities)
        }),
        first_wrong(&gate.desk, &lone.desk, |place| {
            meaning(desk + place, securities)
        }),
    ]
    .concat()
}

#[cfg(test)]
mod tests {
    use second::answer::Answer;
    use second::gate;

    use super::*;
    use crate::places::{EDGES, is_in_range, place};

    /// How many events of a history are such, by the words that they leave and
    /// their answer.
    fn count(subject: &Subject, wanted: fn(&[u32], &[u8], Answer) -> bool) -> usize {
        let mut words = fresh(subject.customers, subject.securities);
        let found = subject.history.iter().filter(|event| {
            let answer = gate::handle(&mut words, event);
            wanted(&words, event, answer)
        });
        found.count()
    }

    fn rests(subject: &Subject) -> usize {
        count(subject, |_, event, answer| {
            event.first() == Some(&8) && answer == Answer::Ok
        })
    }

    /// Orders at an edge that an adjusted close draws.
    fn edges(subject: &Subject) -> usize {
        count(subject, |words, event, answer| {
            EDGES.contains(&place(words, event, number(answer)))
        })
    }

    /// Orders at an edge of the day's range, and with C or without it.
    fn at_range_edges(subject: &Subject) -> usize {
        count(subject, |words, event, answer| {
            is_in_range(place(words, event, number(answer)))
        })
    }

    fn figures(subject: &Subject) -> usize {
        count(subject, |_, event, answer| {
            event.first() == Some(&9) && answer == Answer::Ok
        })
    }

    /// A lone run is compared over rests only if its history has some.
    #[test]
    fn histories_have_rests() {
        let mut random = Random::new(1);
        let by_few: usize = (0..60).map(|_| rests(&by_a_few(&mut random))).sum();
        let by_all: usize = (0..20).map(|_| rests(&over_every_desk(&mut random))).sum();
        assert!(by_few > 100, "{by_few}");
        assert!(by_all > 20, "{by_all}");
    }

    #[test]
    fn histories_have_figures_and_orders_at_the_edges_of_ranges() {
        let mut random = Random::new(1);
        for wanted in [figures, at_range_edges] {
            let by_few: usize = (0..60).map(|_| wanted(&by_a_few(&mut random))).sum();
            let by_all: usize = (0..20).map(|_| wanted(&over_every_desk(&mut random))).sum();
            assert!(by_few > 100, "{by_few}");
            assert!(by_all > 50, "{by_all}");
        }
    }

    #[test]
    fn histories_have_orders_at_the_edges_of_adjusted_closes() {
        let mut random = Random::new(1);
        let by_few: usize = (0..60).map(|_| edges(&by_a_few(&mut random))).sum();
        let by_all: usize = (0..20).map(|_| edges(&over_every_desk(&mut random))).sum();
        assert!(by_few > 30, "{by_few}");
        assert!(by_all > 15, "{by_all}");
    }
}
