//! What the test programs share. Not every one of them uses all of it.
#![allow(dead_code)]

pub mod books;

use second::answer::{Answer, Rule};
use second::event::{Figures, Order, Prices, Setup};
use second::ladder::LAST_PRICE;
use second::lone::LoneRun;
use second::state::{DESK_WORDS, HEADER_WORDS, ROW_WORDS, SECURITY_WORDS, word_count};
use second::{encode, gate};

pub const CLOSED: u8 = 0;
pub const PRE_OPEN: u8 = 1;
pub const OPEN: u8 = 2;
pub const BREAK: u8 = 3;
pub const PRE_CLOSE: u8 = 4;

pub const MAIN: u8 = 0;
pub const FOREIGN: u8 = 1;

pub const BUY: u8 = 0;
pub const SELL: u8 = 1;

pub const LIMIT: u8 = 0;
pub const ATO: u8 = 1;
pub const ATC: u8 = 2;
pub const MP: u8 = 3;

pub const FRONT: u8 = 0;
pub const ONLINE: u8 = 1;
pub const DMA: u8 = 2;

pub const OK: Answer = Answer::Ok;
pub const ACCEPT: Answer = Answer::Accept;
pub const WARN_30: Answer = Answer::Warn30;
pub const WARN_10: Answer = Answer::Warn10;
pub const S: Answer = Answer::Reject(Rule::S);
pub const V: Answer = Answer::Reject(Rule::V);
pub const C: Answer = Answer::Reject(Rule::C);
pub const Q: Answer = Answer::Reject(Rule::Q);
pub const W: Answer = Answer::Reject(Rule::W);
pub const P: Answer = Answer::Reject(Rule::P);

pub fn refused(number: u8) -> Answer {
    Answer::Refused(number)
}

/// A state with the events it got. Every refusal is checked to change nothing.
#[derive(Clone)]
pub struct Gate {
    pub words: Vec<u32>,
}

impl Gate {
    pub fn new(customers: u32, securities: u32) -> Self {
        let mut words = vec![0; word_count(customers, securities).expect("counts in range")];
        assert_eq!(gate::fresh(&mut words, customers, securities), OK);
        Gate { words }
    }

    pub fn send(&mut self, event: &[u8]) -> Answer {
        let before = self.words.clone();
        let answer = gate::handle(&mut self.words, event);
        if matches!(answer, Answer::Refused(_)) {
            assert_eq!(self.words, before, "{answer} changed words");
        }
        answer
    }

    /// Sends an event that must be carried out.
    pub fn ok(&mut self, event: &[u8]) -> &mut Self {
        assert_eq!(self.send(event), OK);
        self
    }

    pub fn order(&mut self, order: Order) -> Answer {
        self.send(&encode::order(&order))
    }

    /// The answer that the order would get; the state stays as it is.
    pub fn would(&self, order: Order) -> Answer {
        self.clone().order(order)
    }

    pub fn clock(&mut self, time: u32) -> &mut Self {
        self.ok(&encode::clock(time))
    }

    pub fn session(&mut self, session: u8) -> &mut Self {
        self.ok(&encode::session(session))
    }

    pub fn cancel(&mut self, customer: u16, number: u32) -> Answer {
        self.send(&encode::cancel(customer, number))
    }

    pub fn match_report(&mut self, customer: u16, number: u32, volume: u32) -> Answer {
        self.send(&encode::match_report(customer, number, volume))
    }

    pub fn rest(&mut self, customer: u16, number: u32, price: u32) -> Answer {
        self.send(&encode::rest(customer, number, price))
    }

    pub fn customers(&self) -> usize {
        self.words[0] as usize
    }

    pub fn securities(&self) -> usize {
        self.words[1] as usize
    }

    /// Header and security records.
    pub fn market(&self) -> &[u32] {
        &self.words[..HEADER_WORDS + SECURITY_WORDS * self.securities()]
    }

    pub fn security(&self, security: usize) -> &[u32] {
        &self.words[HEADER_WORDS + SECURITY_WORDS * security..][..SECURITY_WORDS]
    }

    pub fn desk_start(&self, customer: usize) -> usize {
        HEADER_WORDS + SECURITY_WORDS * self.securities() + DESK_WORDS * customer
    }

    pub fn desk(&self, customer: usize) -> &[u32] {
        &self.words[self.desk_start(customer)..][..DESK_WORDS]
    }

    pub fn counters(&self, customer: usize) -> [u32; 3] {
        self.desk(customer)[..3].try_into().unwrap()
    }

    pub fn row(&self, customer: usize, row: usize) -> [u32; 9] {
        self.desk(customer)[3 + ROW_WORDS * row..][..ROW_WORDS]
            .try_into()
            .unwrap()
    }

    /// The numbers of the marked rows, in their order.
    pub fn numbers(&self, customer: usize) -> Vec<u32> {
        (0..32)
            .map(|row| self.row(customer, row))
            .filter(|row| row[0] != 0)
            .map(|row| row[1])
            .collect()
    }
}

/// A gate and the lone run of its only customer.
#[derive(Clone)]
pub struct Pair {
    pub gate: Gate,
    lone: LoneRun,
}

impl Pair {
    pub fn new() -> Self {
        Pair {
            gate: Gate::new(1, 1),
            lone: LoneRun::new(1, 1, 0),
        }
    }

    pub fn send(&mut self, event: &[u8]) -> Answer {
        let answer = self.gate.send(event);
        assert_eq!(self.lone.handle(event), answer, "{event:?}");
        assert_eq!(self.lone.market_words(), self.gate.market());
        assert_eq!(self.lone.desk_words(), self.gate.desk(0));
        answer
    }

    pub fn ok(mut self, event: &[u8]) -> Self {
        assert_eq!(self.send(event), OK);
        self
    }

    pub fn would(&self, order: Order) -> Answer {
        self.clone().send(&encode::order(&order))
    }
}

/// Customer 0, security 0, main board, limit, online.
pub fn buy(number: u32, price: u32, volume: u32) -> Order {
    Order {
        customer: 0,
        number,
        security: 0,
        board: MAIN,
        side: BUY,
        order_type: LIMIT,
        channel: ONLINE,
        price,
        volume,
    }
}

pub fn sell(number: u32, price: u32, volume: u32) -> Order {
    Order {
        side: SELL,
        ..buy(number, price, volume)
    }
}

/// An order without a price.
pub fn priceless(order_type: u8, side: u8, number: u32) -> Order {
    Order {
        order_type,
        side,
        ..buy(number, 0, 100)
    }
}

/// Security 0 with these flags, lot 100.
pub fn setup(free: u8, first_day: u8, prior_close: u32, ipo: u32) -> Vec<u8> {
    encode::setup(&Setup {
        security: 0,
        lot: 100,
        free,
        first_day,
        prior_close,
        ipo,
    })
}

/// Prices of security 0: projected, last sale, bid, offer.
pub fn prices(board: u8, [projected, last, bid, offer]: [u32; 4]) -> Vec<u8> {
    encode::prices(&Prices {
        security: 0,
        board,
        projected,
        last,
        bid,
        offer,
    })
}

/// Figures of security 0.
pub fn figures(dividend: u32, subscription: u32, old: u16, new: u16) -> Vec<u8> {
    encode::figures(&Figures {
        security: 0,
        dividend,
        subscription,
        old,
        new,
    })
}

/// Every legal price, walked step by step up the paper's table. Its position is
/// its place in the list; place 0 holds no price.
pub fn legal_prices() -> Vec<u32> {
    let mut prices = vec![0];
    let mut price = 1;
    while price <= LAST_PRICE {
        prices.push(price);
        price += match price {
            0..2_00 => 1,
            2_00..5_00 => 2,
            5_00..10_00 => 5,
            10_00..25_00 => 10,
            25_00..100_00 => 25,
            100_00..200_00 => 50,
            200_00..400_00 => 1_00,
            400_00.. => 2_00,
        };
    }
    prices
}

/// A small deterministic generator (splitmix64).
pub struct Random(u64);

impl Random {
    pub fn new(seed: u64) -> Self {
        Random(seed)
    }

    pub fn next(&mut self) -> u64 {
        self.0 = self.0.wrapping_add(0x9e37_79b9_7f4a_7c15);
        let mut mixed = self.0;
        mixed = (mixed ^ (mixed >> 30)).wrapping_mul(0xbf58_476d_1ce4_e5b9);
        mixed = (mixed ^ (mixed >> 27)).wrapping_mul(0x94d0_49bb_1331_11eb);
        mixed ^ (mixed >> 31)
    }

    pub fn below(&mut self, bound: u32) -> u32 {
        (self.next() % u64::from(bound)) as u32
    }

    /// True in about one of `times` calls.
    pub fn once_in(&mut self, times: u32) -> bool {
        self.below(times) == 0
    }

    pub fn pick<T: Copy>(&mut self, choices: &[T]) -> T {
        choices[self.below(choices.len() as u32) as usize]
    }
}
