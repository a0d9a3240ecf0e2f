//! Random histories: the gate beside the lone run of every customer, and the
//! gate over damaged words.

mod common;

use std::collections::BTreeMap;

use common::*;
use second::answer::Answer;
use second::event::{Event, Figures, Order, Prices, Setup, decode};
use second::lone::{LoneRun, Owner, belongs};
use second::state::SECURITY_WORDS;
use second::{encode, gate, ladder};

/// How a history leans, so that full desks, repeated cancels and auctions all
/// come about often enough.
#[derive(Clone, Copy)]
struct Lean {
    /// One event in so many is a cancel, a match or a rest, beside the orders.
    removal: u32,
    /// One event in so many is a market event.
    market: u32,
    sessions: &'static [u8],
    /// Cancels, matches and likenesses look back over so many orders.
    reach: usize,
    prices: &'static [u32],
    /// Prior closes, most of them between two steps.
    closes: &'static [u32],
    volumes: &'static [u32],
}

const NEAR_50: &[u32] = &[49_50, 49_75, 50_00, 50_25, 50_50];
const SPREAD: &[u32] = &[
    1, 4_98, 5_00, 6_95, 7_00, 9_90, 10_00, 11_00, 11_10, 13_00, 13_10, 15_00, 15_10, 23_40, 23_50,
    24_50, 26_25, 26_50, 398_00, 400_00, 10_000_000,
];

/// Between 65.50 and 65.75.
const NEAR_65_60: &[u32] = &[65_51, 65_60, 65_74];

const LEANS: [Lean; 6] = [
    Lean {
        removal: 4,
        market: 5,
        sessions: &[1, 0, 2, 2, 3, 4],
        reach: 20,
        prices: NEAR_50,
        closes: &[50_00, 50_10, 50_24],
        volumes: &[100, 150, 200, 59_900, 60_000, 100_000],
    },
    Lean {
        removal: 2,
        market: 5,
        sessions: &[2, 2, 2, 2, 1],
        reach: 12,
        prices: &[50_00, 50_25],
        closes: &[50_01, 50_25],
        volumes: &[59_900, 60_000, 119_900, 120_000, 120_200],
    },
    Lean {
        removal: 4,
        market: 4,
        sessions: &[1, 2, 4],
        reach: 30,
        prices: SPREAD,
        closes: &[24_50, 24_51, 24_99, 399_99, 9_999_999],
        volumes: &[100, 100, 5_000, 10_000_000, 20_000_000, 20_000_100],
    },
    // Few removals and many numbers: full desks.
    Lean {
        removal: 12,
        market: 30,
        sessions: &[2, 2, 2, 1],
        reach: 60,
        prices: NEAR_50,
        closes: &[50_00, 50_10],
        volumes: &[100, 200, 300],
    },
    Lean {
        removal: 5,
        market: 4,
        sessions: &[1, 4],
        reach: 20,
        prices: NEAR_50,
        closes: &[50_00, 50_01, 50_24, 52_60],
        volumes: &[100, 200],
    },
    // Ten and eleven positions up from 65.50 and down from 65.75.
    Lean {
        removal: 5,
        market: 8,
        sessions: &[1, 4],
        reach: 20,
        prices: &[63_00, 63_25, 65_50, 65_75, 68_00, 68_25],
        closes: NEAR_65_60,
        volumes: &[100, 200],
    },
];

struct Writer {
    random: Random,
    lean: Lean,
    customers: u32,
    securities: u32,
    clock: u32,
    session: u8,
    next_number: u32,
    /// Orders written so far, for cancels, matches and orders like them.
    written: Vec<Order>,
}

impl Writer {
    /// A first event: without it nothing but S comes for long.
    fn opening(&mut self) -> Vec<u8> {
        self.session = self.lean.sessions[0];
        encode::session(self.session)
    }

    fn event(&mut self) -> Vec<u8> {
        let random = &mut self.random;
        let mut bytes = if random.once_in(self.lean.market) {
            self.market_event()
        } else if random.once_in(self.lean.removal) {
            self.removal()
        } else {
            self.order()
        };
        // A little of everything that gets turned back.
        if self.random.once_in(40) {
            let place = self.random.below(bytes.len() as u32) as usize;
            bytes[place] = self.random.next() as u8;
        }
        if self.random.once_in(150) {
            let length = self.random.below(24) as usize;
            bytes.resize(length, 0);
        }
        bytes
    }

    /// Mostly one below the count, now and then one too many.
    fn name(&mut self, count: u32) -> u16 {
        let bound = if self.random.once_in(60) {
            count + 1
        } else {
            count
        };
        self.random.below(bound) as u16
    }

    fn price(&mut self) -> u32 {
        match self.random.below(40) {
            0 => self.random.below(10_100_000),
            1 => ladder::price(1 + self.random.below(ladder::POSITIONS)).unwrap(),
            _ => self.random.pick(self.lean.prices),
        }
    }

    fn price_or_absent(&mut self) -> u32 {
        if self.random.once_in(3) {
            0
        } else {
            self.price()
        }
    }

    /// Legal or not, and now and then beyond 10,000,000.
    fn close(&mut self) -> u32 {
        match self.random.below(20) {
            0 => self.random.below(10_100_000),
            1..=4 => self.price_or_absent(),
            _ => self.random.pick(self.lean.closes),
        }
    }

    /// Mostly a new number, now and then one used before or 0.
    fn number(&mut self) -> u32 {
        if self.random.once_in(6) {
            return self.random.below(self.next_number);
        }
        self.next_number += 1;
        self.next_number - 1
    }

    /// One of the last orders, if there is one.
    fn recent(&mut self) -> Option<Order> {
        let span = self.written.len().min(self.lean.reach);
        (span > 0).then(|| {
            let back = 1 + self.random.below(span as u32) as usize;
            self.written[self.written.len() - back]
        })
    }

    fn market_event(&mut self) -> Vec<u8> {
        match self.random.below(9) {
            8 => self.figures(),
            0..=2 => {
                let step = match self.random.below(8) {
                    0 => 0,
                    1 | 2 => 60_000,
                    3 => 60_001,
                    4 => 59_999,
                    _ => self.random.below(20_000),
                };
                self.clock += step;
                let back = if self.random.once_in(12) { 30_000 } else { 0 };
                encode::clock(self.clock.saturating_sub(back))
            }
            3 => {
                self.session = self.random.pick(self.lean.sessions);
                encode::session(self.session)
            }
            4 => encode::setup(&Setup {
                security: self.name(self.securities),
                lot: self.random.pick(&[1, 50, 100, 100, 100, 100, 100, 7]),
                free: self.random.below(2) as u8,
                first_day: self.random.below(2) as u8,
                prior_close: self.close(),
                ipo: self.price_or_absent(),
            }),
            _ => encode::prices(&Prices {
                security: self.name(self.securities),
                board: self.random.below(2) as u8,
                projected: self.price_or_absent(),
                last: self.price_or_absent(),
                bid: self.price_or_absent(),
                offer: self.price_or_absent(),
            }),
        }
    }

    /// Mostly such as are not refused, if the security has a close.
    fn figures(&mut self) -> Vec<u8> {
        let price = self.price();
        encode::figures(&Figures {
            security: self.name(self.securities),
            dividend: self.random.pick(&[0, 0, 1, 25, 1_00, 24_50, 50_00, price]),
            subscription: self.random.pick(&[0, 10_00, 40_00, price, u32::MAX]),
            old: self.random.pick(&[1, 1, 2, 10, u16::MAX, 0]),
            new: self.random.pick(&[0, 1, 1, 3, u16::MAX]),
        })
    }

    fn order(&mut self) -> Vec<u8> {
        let fits = match self.session {
            PRE_OPEN => ATO,
            PRE_CLOSE => ATC,
            _ => MP,
        };
        let order_type = match self.random.below(12) {
            0..=7 => LIMIT,
            8..=10 => fits,
            _ => self.random.pick(&[ATO, ATC, MP, 4]),
        };
        let has_price = order_type == LIMIT || self.random.once_in(30);
        let mut order = Order {
            customer: self.name(self.customers),
            number: self.number(),
            security: self.name(self.securities),
            board: self.random.pick(&[MAIN, MAIN, FOREIGN]),
            side: self.random.below(2) as u8,
            order_type,
            channel: self.random.pick(&[FRONT, ONLINE, ONLINE, DMA]),
            price: if has_price { self.price() } else { 0 },
            volume: if self.random.once_in(40) {
                self.random.next() as u32
            } else {
                self.random.pick(self.lean.volumes)
            },
        };
        // Now and then one like an order before it, but for one field.
        if self.random.once_in(3)
            && let Some(like) = self.recent()
        {
            order = match self.random.below(7) {
                0 => Order {
                    board: order.board,
                    ..like
                },
                1 => Order {
                    side: order.side,
                    ..like
                },
                2 => Order {
                    security: order.security,
                    ..like
                },
                3 => Order {
                    customer: order.customer,
                    ..like
                },
                4 if like.order_type == LIMIT => Order {
                    price: self.price(),
                    ..like
                },
                _ => Order {
                    channel: ONLINE,
                    volume: order.volume,
                    ..like
                },
            };
            order.number = self.number();
        }
        self.written.push(order);
        encode::order(&order)
    }

    /// A cancel, a match or a rest.
    fn removal(&mut self) -> Vec<u8> {
        let Order {
            mut customer,
            number,
            order_type,
            volume,
            ..
        } = self.recent().unwrap_or(buy(1, 50_00, 100));
        if self.random.once_in(15) {
            customer = self.name(self.customers);
        }
        if self.random.once_in(if order_type == MP { 2 } else { 20 }) {
            let price = self.price();
            encode::rest(customer, number, price)
        } else if self.random.once_in(3) {
            let volume = self
                .random
                .pick(&[0, 50, 100, 100, 200, volume / 2, volume]);
            encode::match_report(customer, number, volume)
        } else {
            encode::cancel(customer, number)
        }
    }
}

fn writer(seed: u64) -> Writer {
    let mut random = Random::new(seed);
    Writer {
        lean: random.pick(&LEANS),
        customers: 1 + random.below(4),
        securities: 1 + random.below(3),
        clock: 0,
        session: CLOSED,
        next_number: 1,
        written: Vec::new(),
        random,
    }
}

/// A history, its state's customers and securities.
fn history(seed: u64) -> (Vec<Vec<u8>>, u32, u32) {
    let mut writer = writer(seed);
    let length = 50 + writer.random.below(250);
    let mut events = vec![writer.opening()];
    events.extend((0..length).map(|_| writer.event()));
    (events, writer.customers, writer.securities)
}

/// The price and the answer of an order that warn 10 judged by a prior close
/// between 65.50 and 65.75. The order left the header and its security as they
/// were.
fn judged_near_65_60(gate: &Gate, event: &[u8], answer: Answer) -> Option<(u32, String)> {
    let Ok(Event::Order(order)) = decode(event) else {
        return None;
    };
    let was_judged = matches!(answer, Answer::Accept | Answer::Warn10)
        && [u32::from(PRE_OPEN), u32::from(PRE_CLOSE)].contains(&gate.words[3])
        && order.order_type == LIMIT
        && order.board == MAIN
        && order.channel != FRONT;
    if !was_judged {
        return None;
    }
    let security = gate.security(order.security.into());
    let (close, projected, last) = (security[3], security[5], security[6]);
    (projected == 0 && last == 0 && NEAR_65_60.contains(&close))
        .then(|| (order.price, answer.to_string()))
}

#[test]
fn the_gate_answers_as_the_lone_runs() {
    let mut seen: BTreeMap<String, u32> = BTreeMap::new();
    let mut rests: BTreeMap<String, u32> = BTreeMap::new();
    let mut near_65_60: BTreeMap<(u32, String), u32> = BTreeMap::new();
    for seed in 0..6_000 {
        let (events, customers, securities) = history(seed);
        let mut gate = Gate::new(customers, securities);
        let mut lone: Vec<LoneRun> = (0..customers)
            .map(|k| LoneRun::new(customers, securities, k))
            .collect();
        for (index, event) in events.iter().enumerate() {
            let answer = gate.send(event);
            *seen.entry(answer.to_string()).or_default() += 1;
            if event.first() == Some(&8) {
                *rests.entry(answer.to_string()).or_default() += 1;
            }
            if let Some(judged) = judged_near_65_60(&gate, event, answer) {
                *near_65_60.entry(judged).or_default() += 1;
            }
            let fed = match belongs(event, customers) {
                Owner::Market => 0..customers as usize,
                Owner::Customer(k) => k as usize..k as usize + 1,
                Owner::Nobody => {
                    assert!(matches!(answer, Answer::Refused(2..=4)));
                    0..0
                }
            };
            for run in &mut lone[fed] {
                assert_eq!(run.handle(event), answer, "history {seed}, event {index}");
            }
        }
        for (k, run) in lone.iter().enumerate() {
            assert_eq!(run.market_words(), gate.market(), "history {seed}");
            assert_eq!(run.desk_words(), gate.desk(k), "history {seed}, desk {k}");
        }
    }
    // The histories are worth something only if every answer comes about.
    let expected = [
        "ok",
        "accept",
        "warn 30",
        "warn 10",
        "reject S",
        "reject V",
        "reject C",
        "reject Q",
        "reject W",
        "reject P",
        "refused 2",
        "refused 3",
        "refused 4",
        "refused 5",
        "refused 6",
        "refused 7",
        "refused 9",
        "refused 10",
        "refused 11",
        "refused 12",
        "refused 13",
    ];
    println!("{seen:#?} {rests:#?}");
    for answer in expected {
        let times = seen.remove(answer).unwrap_or(0);
        assert!(times >= 100, "{answer} came only {times} times");
    }
    assert!(seen.is_empty(), "never from a fresh state: {seen:?}");
    for answer in [
        "ok",
        "refused 2",
        "refused 4",
        "refused 5",
        "refused 6",
        "refused 10",
    ] {
        let times = rests.remove(answer).unwrap_or(0);
        assert!(times >= 20, "{answer} came only {times} times from kind 8");
    }
    assert!(rests.is_empty(), "never from kind 8: {rests:?}");
    let times = |price, answer: &str| near_65_60.get(&(price, answer.into())).copied();
    for (price, answer, other) in [
        (63_00, "warn 10", "accept"),
        (63_25, "accept", "warn 10"),
        (68_00, "accept", "warn 10"),
        (68_25, "warn 10", "accept"),
    ] {
        let came = (times(price, answer).unwrap_or(0), times(price, other));
        assert!(came.0 >= 100, "{answer} at {price} came {came:?} times");
        assert_eq!(came.1, None, "{other} at {price}");
    }
}

#[test]
fn other_customers_change_nothing() {
    for seed in 0..500 {
        let (events, customers, securities) = history(seed);
        for k in 0..customers {
            let own = |event: &&Vec<u8>| {
                let owner = belongs(event, customers);
                owner == Owner::Market || owner == Owner::Customer(k)
            };
            let mut mixed = Gate::new(customers, securities);
            let mut alone = Gate::new(customers, securities);
            for event in &events {
                let answer = gate::handle(&mut mixed.words, event);
                if own(&event) {
                    assert_eq!(alone.send(event), answer);
                }
            }
            assert_eq!(mixed.market(), alone.market());
            assert_eq!(mixed.desk(k as usize), alone.desk(k as usize));
        }
    }
}

#[test]
fn to_whom_an_event_belongs() {
    let order = |customer| {
        encode::order(&Order {
            customer,
            security: 999,
            ..buy(0, 2_01, 0)
        })
    };
    let table = [
        (vec![], Owner::Nobody),
        (vec![0], Owner::Nobody),
        (vec![8, 0, 0], Owner::Nobody),
        (vec![9, 0, 0, 0, 0, 0, 0, 0, 0, 0, 0], Owner::Nobody),
        (vec![10, 0, 0, 0, 0, 0, 0, 0, 0, 0, 0], Owner::Nobody),
        (vec![1, 0, 0, 0], Owner::Nobody),
        (encode::clock(u32::MAX), Owner::Market),
        (encode::session(9), Owner::Market),
        (setup(9, 9, 2_01, 0), Owner::Market),
        (prices(9, [2_01; 4]), Owner::Market),
        (figures(0, 0, 0, 0), Owner::Market),
        (order(0), Owner::Customer(0)),
        (order(3), Owner::Customer(3)),
        (order(4), Owner::Nobody),
        (order(260), Owner::Nobody),
        (encode::cancel(3, 0), Owner::Customer(3)),
        (encode::cancel(4, 1), Owner::Nobody),
        (encode::match_report(2, 0, 0), Owner::Customer(2)),
        (encode::match_report(u16::MAX, 1, 1), Owner::Nobody),
        (encode::rest(3, 0, 0), Owner::Customer(3)),
        (encode::rest(4, 1, 50_00), Owner::Nobody),
    ];
    for (event, owner) in table {
        assert_eq!(belongs(&event, 4), owner, "{event:?}");
    }
}

/// Soundness once more, as a list of the paper's clauses over the bare words.
mod soundness {
    use second::ladder::legal;

    pub fn security(w: &[u32]) -> bool {
        [1, 50, 100].contains(&w[0])
            && w[1] <= 1
            && w[2] <= 1
            && w[3] <= 10_000_000
            && w[4] <= 10_000_000
            && w[5..13].iter().all(|&price| price == 0 || legal(price))
            && (w[13..] == [0; 4] || w[13] < w[3] && (1..65_536).contains(&w[15]) && w[16] < 65_536)
    }

    pub fn desk(w: &[u32], securities: u32, clock: u32) -> bool {
        let rows: Vec<&[u32]> = w[3..].chunks(9).collect();
        let is_marked = |row: &&&[u32]| row[0] != 0;
        let marked = rows.iter().filter(is_marked).count();
        let first = rows.iter().take_while(is_marked).count();
        let (standing, free) = rows.split_at(first);
        marked == first
            && free.iter().all(|row| **row == [0; 9])
            && standing.iter().all(|row| {
                let alike = standing.iter().filter(|other| other[1] == row[1]).count();
                row[0] <= 2
                    && row[1] > 0
                    && alike == 1
                    && row[2] < securities
                    && row[3] <= 1
                    && row[4] <= 1
                    && row[5] <= 3
                    && (if row[5] == 0 {
                        legal(row[6])
                    } else {
                        row[6] == 0
                    })
                    && (1..=20_000_000).contains(&row[7])
                    && (if row[0] == 1 {
                        row[8] == 0
                    } else {
                        row[8] <= clock
                    })
                    && (row[0] == 1 || row[5] == 0)
            })
    }
}

#[test]
fn damaged_words_never_stop_the_gate() {
    let mut eights = 0;
    let mut not_sound_but_not_read = 0;
    for seed in 0..3_000 {
        let mut writer = writer(100_000 + seed);
        let mut gate = Gate::new(writer.customers, writer.securities);
        gate.ok(&writer.opening());
        for _ in 0..60 {
            gate.send(&writer.event());
        }
        for _ in 0..60 {
            if writer.random.once_in(3) {
                // Damage one word of the records, mostly a little and near marked rows.
                let desk = gate.desk_start(writer.random.below(writer.customers) as usize);
                let place = match writer.random.below(4) {
                    0 => 4 + writer.random.below(gate.words.len() as u32 - 4),
                    1 => {
                        4 + writer
                            .random
                            .below(SECURITY_WORDS as u32 * writer.securities)
                    }
                    _ => desk as u32 + writer.random.below(3 + 9 * 12),
                };
                let value = match writer.random.below(4) {
                    0 => writer.random.next() as u32,
                    1 => writer.random.below(10_100_000),
                    _ => writer.random.below(4),
                };
                gate.words[place as usize] = value;
            }
            let event = writer.event();
            let before = gate.clone();
            let answer = gate.send(&event);

            // Where the event gets as far as its records, 8 comes exactly if one
            // of those it reads is not sound.
            let past_records = match answer {
                Answer::Refused(1..=7) => continue,
                Answer::Refused(8) => false,
                _ => true,
            };
            let (securities, clock) = (before.words[1], before.words[2]);
            let name = |at: usize| usize::from(u16::from_le_bytes([event[at], event[at + 1]]));
            let security = |index| soundness::security(before.security(index));
            let desk = |index| soundness::desk(before.desk(index), securities, clock);
            let everything =
                (0..before.securities()).all(security) && (0..before.customers()).all(desk);
            let sound = match event[0] {
                1 => true,
                2 => everything,
                3 | 4 | 9 => security(name(1)),
                5 => security(name(7)) && desk(name(1)),
                _ => desk(name(1)),
            };
            assert_eq!(past_records, sound, "seed {seed}, {answer}, {event:?}");
            eights += u32::from(!past_records);
            not_sound_but_not_read += u32::from(past_records && !everything);
            // Start again with sound words now and then.
            if writer.random.once_in(12) {
                gate = Gate::new(writer.customers, writer.securities);
                gate.ok(&writer.opening());
                for _ in 0..40 {
                    gate.send(&writer.event());
                }
            }
        }
    }
    assert!(eights > 10_000, "{eights}");
    assert!(not_sound_but_not_read > 10_000, "{not_sound_but_not_read}");
}

#[test]
fn any_words_and_any_bytes() {
    let mut random = Random::new(7);
    for _ in 0..20_000 {
        let length = match random.below(3) {
            0 => random.below(8) as usize,
            1 => 4 + SECURITY_WORDS + 291,
            _ => 4 + 2 * SECURITY_WORDS + 291,
        };
        let mut words: Vec<u32> = (0..length)
            .map(|_| match random.below(3) {
                0 => random.next() as u32,
                _ => random.below(3),
            })
            .collect();
        if random.once_in(2) && length > 291 {
            words[0] = 1;
            words[1] = ((length - 4 - 291) / SECURITY_WORDS) as u32;
            words[2] = random.below(86_400_000);
            words[3] = random.below(5);
        }
        let event: Vec<u8> = (0..random.below(24))
            .map(|at| match at {
                0 => random.below(11) as u8,
                _ => random.next() as u8,
            })
            .collect();
        Gate { words }.send(&event);
    }
}
