//! Random books for the auction (paper 02, requests 5 and 6), in several shapes:
//! few prices or many, crossing or not, with and without ATO, in every band of the
//! ladder, and a bad order or a short list now and then.

use second::auction::Order;
use second::ladder::LAST_PRICE;
use second::state::MAX_VOLUME;

use crate::auction_call::Call;
use crate::prices::{between, middle, step};
use crate::program::Program;
use crate::random::Random;

/// So many books are drawn in a round.
const BOOKS: usize = 400;

/// Where the prices of the two sides stand.
#[derive(Clone, Copy, Debug)]
enum Crossing {
    /// Every price is for both sides.
    Mixed,
    /// Buyers from the middle up, sellers down.
    Always,
    /// The other way round: at most at the middle.
    Hardly,
}

#[derive(Clone, Copy, Debug)]
pub struct Shape {
    length: usize,
    /// The ladder position in the middle of the prices.
    middle: u32,
    /// How many different prices a side may have.
    prices: u32,
    crossing: Crossing,
    /// One order in so many is an ATO; none if 0.
    ato: u32,
    /// Nobody is on the other side.
    one_side: bool,
    /// Few different ones make ties.
    volumes: &'static [u32],
}

const VOLUMES: [&[u32]; 5] = [
    &[100],
    &[100, 100, 100, 200, 300],
    &[1, 2, 3],
    &[MAX_VOLUME, MAX_VOLUME - 1],
    // Any.
    &[],
];

impl Shape {
    pub fn draw(random: &mut Random) -> Self {
        let length = match random.below(128) {
            0 => 1_000 + random.place(30),
            1 => random.place(1_025),
            2..=33 => random.place(129),
            _ => random.place(17),
        };
        Shape {
            length,
            middle: middle(random),
            prices: random.pick(&[1, 2, 3, 8, 40, 200, 1_200]),
            crossing: random.pick(&[
                Crossing::Mixed,
                Crossing::Mixed,
                Crossing::Always,
                Crossing::Hardly,
            ]),
            ato: random.pick(&[0, 0, 0, 8, 8, 2, 1]),
            one_side: random.once_in(16),
            volumes: random.pick(&VOLUMES),
        }
    }

    pub fn order(&self, random: &mut Random) -> Order {
        let side = if self.one_side {
            self.middle % 2
        } else {
            random.below(2)
        };
        let is_ato = self.ato > 0 && random.once_in(self.ato);
        let volume = match self.volumes {
            [] => 1 + random.below(MAX_VOLUME),
            volumes => random.pick(volumes),
        };
        Order {
            side,
            price: if is_ato { 0 } else { self.price(random, side) },
            volume,
        }
    }

    fn price(&self, random: &mut Random, side: u32) -> u32 {
        let away = random.below(self.prices) as i32;
        let is_up = match self.crossing {
            Crossing::Mixed => return step(self.middle, away - self.prices as i32 / 2),
            Crossing::Always => side == 0,
            Crossing::Hardly => side == 1,
        };
        step(self.middle, if is_up { away } else { -away })
    }
}

pub fn run(program: &mut Program) {
    let mut random = program.random();
    for _ in 0..BOOKS {
        let shape = Shape::draw(&mut random);
        let mut orders: Vec<Order> = (0..shape.length)
            .map(|_| shape.order(&mut random))
            .collect();
        if !orders.is_empty() && random.once_in(12) {
            let place = random.place(orders.len());
            orders[place] = spoilt(&mut random, orders[place]);
        }
        let reference = reference(&mut random, &orders);
        let places = [(); 3].map(|_| places(&mut random));
        book(program, &mut random, &shape, &orders, reference, places);
    }
}

/// The book as it was drawn and shuffled, which gives the same price and volume.
fn book(
    program: &mut Program,
    random: &mut Random,
    shape: &Shape,
    orders: &[Order],
    reference: u32,
    places: [usize; 3],
) {
    let call = Call::new(random, orders, reference, places);
    let mut shuffled = Call::new(random, orders, reference, places);
    random.shuffle(&mut shuffled.orders);
    let Some(drawn) = program.auction(format_args!("{shape:?}"), &call) else {
        return;
    };
    let Some(outcome) = program.auction(format_args!("{shape:?}, shuffled"), &shuffled) else {
        return;
    };
    let [drawn, outcome] = [drawn, outcome].map(|outcome| outcome.answers());
    program.holds(
        format_args!("{shape:?}, in both orders"),
        drawn == outcome,
        || {
            let books = call.describe() + &shuffled.describe();
            format!("{books}the first gives {drawn}; the second {outcome}")
        },
    );
}

/// Mostly where it decides: half way between two prices of the list, or beside.
pub fn reference(random: &mut Random, orders: &[Order]) -> u32 {
    let beside = |random: &mut Random, price: u32| (price + random.below(3)).saturating_sub(1);
    match random.below(8) {
        0 => random.pick(&[0, 1, u32::MAX]),
        1 => random.word() >> random.below(32),
        _ if orders.is_empty() => random.below(LAST_PRICE),
        2 => {
            let price = random.pick(orders).price;
            beside(random, price.min(LAST_PRICE))
        }
        _ => {
            let [one, other] = [(); 2].map(|_| random.pick(orders).price);
            beside(random, one.midpoint(other).min(LAST_PRICE))
        }
    }
}

/// Mostly as long as they must be.
fn places(random: &mut Random) -> usize {
    match random.below(32) {
        0 => random.pick(&[0, 1, 1_023]),
        1..=4 => random.pick(&[1_025, 1_100, 2_000]),
        _ => 1_024,
    }
}

/// One of its numbers is made bad.
pub fn spoilt(random: &mut Random, order: Order) -> Order {
    let mut spoilt = order;
    match random.below(3) {
        0 => spoilt.side = 2 + random.below(u32::MAX - 1),
        1 => spoilt.price = off_the_ladder(random),
        _ => spoilt.volume = random.pick(&[0, MAX_VOLUME + 1, u32::MAX]),
    }
    spoilt
}

fn off_the_ladder(random: &mut Random) -> u32 {
    let gap = between(middle(random));
    match random.below(4) {
        0 => LAST_PRICE + 1 + random.below(u32::MAX - LAST_PRICE),
        1..=3 if !gap.is_empty() => random.pick(&gap),
        _ => LAST_PRICE + 2_00,
    }
}
