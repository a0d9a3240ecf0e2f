//! Warn 10 by a prior close between two steps (paper 02, request 2): from closes
//! in every gap of the ladder up to 400.00 and in many above, orders up to twelve
//! positions up from the lower position and down from the upper one. The answers
//! follow from the positions that a case is made from, so each case says them.

use second::encode;
use second::event::{Order, Prices, Setup};
use second::ladder::POSITIONS;

use crate::layout::{PRIOR_CLOSE, SESSION, fresh, security_start};
use crate::prices::{between, step};
use crate::program::Program;
use crate::references::positions;

const OK: u32 = 0;
const ACCEPT: u32 = 100;
const WARN_10: u32 = 110;

/// At the reference, and on both sides of the ten positions.
const AWAY: [u32; 5] = [0, 9, 10, 11, 12];

/// How the orders of a case are entered.
#[derive(Clone, Copy, Debug)]
struct Entry {
    session: u8,
    board: u8,
    channel: u8,
}

const fn entry(session: u8, board: u8, channel: u8) -> Entry {
    Entry {
        session,
        board,
        channel,
    }
}

/// Main board, sessions 1 and 4, online and DMA.
const JUDGED: [Entry; 4] = [
    entry(1, 0, 1),
    entry(1, 0, 2),
    entry(4, 0, 1),
    entry(4, 0, 2),
];

/// By the front office, on the foreign board, in session 2.
const NOT_JUDGED: [Entry; 3] = [entry(1, 0, 0), entry(4, 1, 1), entry(2, 0, 2)];

pub fn run(program: &mut Program) {
    for lower in positions().into_iter().filter(|&lower| lower < POSITIONS) {
        let closes = between(lower);
        for &close in &closes {
            for entry in JUDGED {
                by_setup(program, close, lower, entry);
            }
            by_lent_word(program, close, lower);
        }
        if let Some(&close) = closes.first() {
            by_nothing(program, close, lower);
            by_other_prices(program, close, lower);
        }
    }
}

fn by_setup(program: &mut Program, close: u32, lower: u32, entry: Entry) {
    let mut case = Case::opened(close, entry);
    case.judged(lower, lower + 1, entry);
    case.run(program, close, entry, &fresh(1, 1));
}

/// The close stands in the words that are lent, which are sound with it.
fn by_lent_word(program: &mut Program, close: u32, lower: u32) {
    let entry = JUDGED[close as usize % JUDGED.len()];
    let mut start = fresh(1, 1);
    start[SESSION] = entry.session.into();
    start[security_start(0)] = 1;
    start[security_start(0) + PRIOR_CLOSE] = close;
    let mut case = Case::default();
    case.judged(lower, lower + 1, entry);
    case.run(program, close, entry, &start);
}

/// Orders that warn 10 has nothing to do with.
fn by_nothing(program: &mut Program, close: u32, lower: u32) {
    for entry in NOT_JUDGED {
        let mut case = Case::opened(close, entry);
        for (position, _) in around(lower, lower + 1) {
            case.order(position, entry, ACCEPT);
        }
        case.run(program, close, entry, &fresh(1, 1));
    }
}

/// A last sale, and a projected price before it, go before the close.
fn by_other_prices(program: &mut Program, close: u32, lower: u32) {
    let away = if lower < POSITIONS / 2 { 25 } else { -25 };
    let [last, projected] = [away, 2 * away].map(|away| lower.saturating_add_signed(away));
    let entry = JUDGED[0];
    for (quoted, reference) in [([0, last], last), ([projected, last], projected)] {
        let mut case = Case::opened(close, entry);
        let [projected, last] = quoted.map(price_if_any);
        case.market(encode::prices(&Prices {
            security: 0,
            board: 0,
            projected,
            last,
            bid: 0,
            offer: 0,
        }));
        case.judged(reference, reference, entry);
        case.run(program, close, entry, &fresh(1, 1));
    }
}

fn price_if_any(position: u32) -> u32 {
    match position {
        0 => 0,
        _ => step(position, 0),
    }
}

/// Positions up from the lower and down from the upper one, and how many.
fn around(lower: u32, upper: u32) -> Vec<(u32, u32)> {
    let up = AWAY.map(|away| (lower + away, away));
    // No gap is below 2.00, so there are positions enough.
    let down = AWAY.map(|away| (upper - away, away));
    let all = up.into_iter().chain(down);
    all.filter(|(position, _)| *position <= POSITIONS).collect()
}

/// Events in turn, and the answer that each must get.
#[derive(Default)]
struct Case {
    events: Vec<Vec<u8>>,
    answers: Vec<Option<u32>>,
}

impl Case {
    /// The session has begun, and the security has its prior close. It is free,
    /// so that Q would be seen to take the close.
    fn opened(close: u32, entry: Entry) -> Self {
        let mut case = Case::default();
        case.market(encode::session(entry.session));
        case.market(encode::setup(&Setup {
            security: 0,
            lot: 1,
            free: 1,
            first_day: 1,
            prior_close: close,
            ipo: 0,
        }));
        case
    }

    fn market(&mut self, event: Vec<u8>) {
        self.events.push(event);
        self.answers.push(Some(OK));
    }

    /// All on one side, since a buy and a sell online would meet.
    fn order(&mut self, position: u32, entry: Entry, answer: u32) {
        self.events.push(encode::order(&Order {
            customer: 0,
            number: 1 + self.events.len() as u32,
            security: 0,
            board: entry.board,
            side: u8::from(entry.session == 4),
            order_type: 0,
            channel: entry.channel,
            price: step(position, 0),
            volume: 1,
        }));
        self.answers.push(Some(answer));
    }

    /// Orders that warn 10 judges from these two positions.
    fn judged(&mut self, lower: u32, upper: u32, entry: Entry) {
        for (position, away) in around(lower, upper) {
            let answer = if away > 10 { WARN_10 } else { ACCEPT };
            self.order(position, entry, answer);
        }
    }

    fn run(&self, program: &mut Program, close: u32, entry: Entry, start: &[u32]) {
        let name = format_args!("prior close {close}, {entry:?}");
        program.case_expecting(name, start, &self.events, &self.answers);
    }
}
