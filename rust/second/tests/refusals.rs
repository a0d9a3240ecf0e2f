//! Each refusal number from each kind of event that can give it.

mod common;

use common::*;
use second::event::{Figures, Order, Prices, Setup};
use second::state::{SECURITY_WORDS, word_count};
use second::{encode, gate};

const SETUP: Setup = Setup {
    security: 0,
    lot: 100,
    free: 0,
    first_day: 0,
    prior_close: 0,
    ipo: 0,
};

const PRICES: Prices = Prices {
    security: 0,
    board: MAIN,
    projected: 0,
    last: 0,
    bid: 0,
    offer: 0,
};

const FIGURES: Figures = Figures {
    security: 0,
    dividend: 1_00,
    subscription: 10_00,
    old: 2,
    new: 3,
};

/// Two customers, three securities, open session, clock 100,000. Customer 0 has
/// an open buy no. 1 of 500 at 50.00, a buy no. 2 cancelled at 100,000 and an
/// open MP buy no. 4 of 100. Securities 0 and 1 have a prior close of 50.00.
fn gate() -> Gate {
    let mut gate = Gate::new(2, 3);
    gate.session(OPEN)
        .clock(100_000)
        .ok(&prices(MAIN, [0, 0, 49_75, 50_25]));
    for security in [0, 1] {
        gate.ok(&encode::setup(&Setup {
            security,
            prior_close: 50_00,
            ..SETUP
        }));
    }
    assert_eq!(gate.order(buy(1, 50_00, 500)), ACCEPT);
    assert_eq!(gate.order(buy(2, 50_00, 500)), ACCEPT);
    assert_eq!(gate.cancel(0, 2), OK);
    assert_eq!(gate.order(priceless(MP, BUY, 4)), ACCEPT);
    gate
}

/// One good event of each kind for that state.
fn one_of_each() -> [Vec<u8>; 9] {
    [
        encode::clock(100_000),
        encode::session(OPEN),
        encode::setup(&SETUP),
        encode::prices(&PRICES),
        encode::order(&buy(3, 50_00, 100)),
        encode::cancel(0, 1),
        encode::match_report(0, 1, 100),
        encode::rest(0, 4, 50_25),
        encode::figures(&FIGURES),
    ]
}

/// The gate's answer if it were sent now; a refusal is checked to change nothing.
fn would(gate: &Gate, event: &[u8]) -> second::answer::Answer {
    gate.clone().send(event)
}

#[test]
fn good_events_are_not_refused() {
    for event in one_of_each() {
        let expected = if event[0] == 5 { ACCEPT } else { OK };
        assert_eq!(would(&gate(), &event), expected);
    }
}

#[test]
fn number_1_comes_before_everything() {
    let whole = gate();
    let mut damaged = Vec::new();
    for (word, values) in [
        (0, &[0, 1, 3, 256, 257, u32::MAX][..]),
        (1, &[0, 1, 2, 4, 1_024, 1_025, u32::MAX]),
        (2, &[86_400_000, u32::MAX]),
        (3, &[5, 256, u32::MAX]),
    ] {
        for &value in values {
            let mut gate = whole.clone();
            gate.words[word] = value;
            damaged.push(gate);
        }
    }
    for length in [0, 1, 2, 3, 4, whole.words.len() - 1] {
        let words = whole.words[..length].to_vec();
        damaged.push(Gate { words });
    }
    let mut long = whole.clone();
    long.words.push(0);
    damaged.push(long);

    for gate in damaged {
        for event in one_of_each() {
            assert_eq!(would(&gate, &event), refused(1));
            assert_eq!(would(&gate, &event[..event.len() - 1]), refused(1));
        }
        assert_eq!(would(&gate, &[]), refused(1));
        assert_eq!(would(&gate, &[10]), refused(1));
    }
}

#[test]
fn number_1_on_making_a_fresh_state() {
    let cases = [
        (0, 1, 0),
        (1, 0, 0),
        (257, 1, 0),
        (1, 1_025, 0),
        (u32::MAX, u32::MAX, 0),
        (1, 1, word_count(1, 1).unwrap() - 1),
        (1, 1, word_count(1, 1).unwrap() + 1),
        (256, 1_024, 0),
        (257, 1, 4 + 17 + 291 * 257),
        (1, 1_025, 4 + 17 * 1_025 + 291),
        (0, 1, 4 + 17),
        (1, 0, 4 + 291),
    ];
    for (customers, securities, length) in cases {
        let mut words = vec![7; length];
        assert_eq!(gate::fresh(&mut words, customers, securities), refused(1));
        assert!(words.iter().all(|&word| word == 7));
    }
}

#[test]
fn a_fresh_state() {
    for (customers, securities) in [(1, 1), (2, 3), (256, 1_024)] {
        let length = 4 + 17 * securities as usize + 291 * customers as usize;
        let mut words = vec![7; length];
        assert_eq!(gate::fresh(&mut words, customers, securities), OK);
        let mut expected = vec![0; length];
        expected[0] = customers;
        expected[1] = securities;
        for security in 0..securities as usize {
            expected[4 + 17 * security] = 100;
        }
        assert_eq!(words, expected);
    }
}

#[test]
fn the_largest_state_and_its_last_places() {
    let mut gate = Gate::new(256, 1_024);
    gate.session(OPEN);
    let order = Order {
        customer: 255,
        security: 1_023,
        ..buy(1, 50_00, 100)
    };
    assert_eq!(gate.order(order), ACCEPT);
    assert_eq!(gate.row(255, 0), [1, 1, 1_023, 0, 0, 0, 50_00, 100, 0]);
    let customer = Order {
        customer: 256,
        ..order
    };
    let security = Order {
        security: 1_024,
        ..order
    };
    assert_eq!(gate.order(customer), refused(4));
    assert_eq!(gate.order(security), refused(4));
    assert_eq!(gate.cancel(256, 1), refused(4));
    assert_eq!(gate.cancel(255, 1), OK);
}

#[test]
fn numbers_2_and_3() {
    let gate = gate();
    assert_eq!(would(&gate, &[]), refused(2));
    for event in one_of_each() {
        for length in 1..event.len() {
            assert_eq!(would(&gate, &event[..length]), refused(2));
        }
        let mut longer = event.clone();
        longer.push(0);
        assert_eq!(would(&gate, &longer), refused(2));
        for kind in [0, 10, 255] {
            let mut unknown = event.clone();
            unknown[0] = kind;
            assert_eq!(would(&gate, &unknown), refused(3));
            assert_eq!(would(&gate, &unknown[..1]), refused(3));
        }
    }
}

#[test]
fn number_4() {
    let gate = gate();
    for security in [3, 4, 1_024, u16::MAX] {
        for event in [
            encode::setup(&Setup { security, ..SETUP }),
            encode::prices(&Prices { security, ..PRICES }),
            encode::figures(&Figures {
                security,
                ..FIGURES
            }),
            encode::order(&Order {
                security,
                ..buy(3, 50_00, 100)
            }),
        ] {
            assert_eq!(would(&gate, &event), refused(4));
        }
    }
    for customer in [2, 256, u16::MAX] {
        for event in [
            encode::order(&Order {
                customer,
                ..buy(3, 50_00, 100)
            }),
            encode::cancel(customer, 1),
            encode::match_report(customer, 1, 100),
            encode::rest(customer, 4, 50_25),
        ] {
            assert_eq!(would(&gate, &event), refused(4));
        }
    }
}

#[test]
fn number_4_before_those_that_follow() {
    let gate = gate();
    let far = 3;
    for event in [
        encode::setup(&Setup {
            security: far,
            lot: 7,
            prior_close: 10_000_001,
            ..SETUP
        }),
        encode::prices(&Prices {
            security: far,
            board: 2,
            last: 2_01,
            ..PRICES
        }),
        // Of the numbers behind 6, 13 too.
        encode::figures(&Figures {
            security: far,
            old: 0,
            ..FIGURES
        }),
        // The customer stands first in the event and the security later.
        encode::order(&Order {
            security: far,
            board: 2,
            price: 2_01,
            ..buy(0, 50_00, 100)
        }),
        encode::order(&Order {
            customer: 2,
            channel: 3,
            ..buy(0, 2_01, 100)
        }),
        encode::cancel(2, 0),
        encode::match_report(2, 0, 0),
        encode::rest(2, 0, 2_01),
    ] {
        assert_eq!(would(&gate, &event), refused(4));
    }
}

#[test]
fn number_5() {
    let gate = gate();
    let order = buy(3, 50_00, 100);
    let events = [
        encode::clock(86_400_000),
        encode::clock(u32::MAX),
        encode::session(5),
        encode::session(255),
        encode::setup(&Setup { lot: 0, ..SETUP }),
        encode::setup(&Setup { lot: 2, ..SETUP }),
        encode::setup(&Setup { lot: 101, ..SETUP }),
        encode::setup(&Setup { free: 2, ..SETUP }),
        encode::setup(&Setup {
            first_day: 2,
            ..SETUP
        }),
        encode::prices(&Prices { board: 2, ..PRICES }),
        encode::order(&Order { board: 2, ..order }),
        encode::order(&Order { side: 2, ..order }),
        encode::order(&Order {
            order_type: 4,
            ..order
        }),
        encode::order(&Order {
            channel: 3,
            ..order
        }),
        encode::order(&Order { number: 0, ..order }),
        encode::cancel(0, 0),
        encode::match_report(0, 0, 100),
        encode::rest(0, 0, 50_25),
    ];
    for event in events {
        assert_eq!(would(&gate, &event), refused(5), "{event:?}");
    }
}

#[test]
fn number_5_before_6() {
    let gate = gate();
    for event in [
        encode::setup(&Setup {
            lot: 7,
            prior_close: 10_000_001,
            ..SETUP
        }),
        encode::setup(&Setup {
            first_day: 2,
            ipo: u32::MAX,
            ..SETUP
        }),
        encode::prices(&Prices {
            board: 2,
            last: 2_01,
            ..PRICES
        }),
        encode::order(&Order {
            channel: 3,
            ..buy(3, 2_01, 100)
        }),
        encode::order(&buy(0, 2_01, 100)),
        encode::order(&Order {
            order_type: 4,
            ..buy(3, 50_00, 100)
        }),
        encode::rest(0, 0, 2_01),
    ] {
        assert_eq!(would(&gate, &event), refused(5));
    }
}

#[test]
fn number_6() {
    let gate = gate();
    for price in [2_01, 10_05, 10_000_001, u32::MAX] {
        for event in [
            encode::prices(&Prices {
                projected: price,
                ..PRICES
            }),
            encode::prices(&Prices {
                last: price,
                ..PRICES
            }),
            encode::prices(&Prices {
                bid: price,
                ..PRICES
            }),
            encode::prices(&Prices {
                offer: price,
                ..PRICES
            }),
            encode::order(&buy(3, price, 100)),
            encode::rest(0, 4, price),
        ] {
            assert_eq!(would(&gate, &event), refused(6));
        }
    }
    let ipo = |ipo| encode::setup(&Setup { ipo, ..SETUP });
    let close = |prior_close| {
        encode::setup(&Setup {
            prior_close,
            ..SETUP
        })
    };
    for price in [2_01, 10_000_000] {
        assert_eq!(would(&gate, &ipo(price)), OK);
        assert_eq!(would(&gate, &close(price)), OK);
    }
    for price in [10_000_001, u32::MAX] {
        assert_eq!(would(&gate, &ipo(price)), refused(6));
        assert_eq!(would(&gate, &close(price)), refused(6));
    }
    assert_eq!(would(&gate, &encode::order(&buy(3, 0, 100))), refused(6));
    assert_eq!(would(&gate, &encode::rest(0, 4, 0)), refused(6));
    for order_type in [ATO, ATC, MP] {
        for price in [1, 50_00, u32::MAX] {
            let order = Order {
                price,
                ..priceless(order_type, BUY, 3)
            };
            assert_eq!(would(&gate, &encode::order(&order)), refused(6));
        }
    }
}

#[test]
fn number_6_before_8_to_10() {
    let gate = gate();
    assert_eq!(would(&gate, &encode::order(&buy(1, 2_01, 100))), refused(6));
    assert_eq!(would(&gate, &encode::rest(0, 77, 2_01)), refused(6));
    let mut damaged = gate.clone();
    damaged.words[4] = 3;
    let event = encode::setup(&Setup {
        prior_close: 10_000_001,
        ..SETUP
    });
    assert_eq!(would(&damaged, &event), refused(6));
    let desk = damaged.desk_start(0);
    damaged.words[desk + 3] = 3;
    assert_eq!(would(&damaged, &encode::rest(0, 4, 2_01)), refused(6));
}

#[test]
fn number_7() {
    let gate = gate();
    assert_eq!(would(&gate, &encode::clock(99_999)), refused(7));
    assert_eq!(would(&gate, &encode::clock(0)), refused(7));
    assert_eq!(would(&gate, &encode::clock(100_000)), OK);
    assert_eq!(would(&gate, &encode::clock(86_400_000)), refused(5));
}

/// Damages to security 0, as word and value, each of which makes it not sound.
fn security_damages() -> Vec<(usize, u32)> {
    let mut damages = vec![
        (0, 0),
        (0, 2),
        (0, 99),
        (0, u32::MAX),
        (1, 2),
        (2, 2),
        (2, u32::MAX),
        (3, 10_000_001),
        (3, u32::MAX),
        (4, 10_000_001),
        (4, u32::MAX),
    ];
    for price in 5..13 {
        damages.extend([(price, 2_01), (price, 10_000_200), (price, u32::MAX)]);
    }
    // Figures without old shares; of the words alone, old is sound from 1 on.
    for figure in [13, 14, 16] {
        damages.extend([(figure, 1), (figure, 50_00), (figure, u32::MAX)]);
    }
    damages.extend([(15, 65_536), (15, u32::MAX)]);
    damages
}

/// Damages to a desk that has row 0 open (number 1), row 1 cancelled at the
/// clock (number 2) and row 2 open of type 3 (number 4), in a state of 3
/// securities at clock 100,000.
fn desk_damages() -> Vec<(usize, u32)> {
    let row = |row: usize, word: usize| 3 + 9 * row + word;
    let mut damages = vec![
        // A gap, and a mark on a free row.
        (row(0, 0), 0),
        (row(3, 0), 1),
        (row(1, 0), 0),
        // An open row with a cancel time; the same number twice.
        (row(0, 8), 1),
        (row(0, 8), 100_000),
        (row(0, 1), 2),
        (row(1, 1), 1),
        // Cancelled after the clock; cancelled, but no limit.
        (row(1, 8), 100_001),
        (row(1, 8), u32::MAX),
        (row(1, 5), 1),
        (row(1, 5), 2),
        // Type 3: cancelled, with a price, with a cancel time.
        (row(2, 0), 2),
        (row(2, 6), 1),
        (row(2, 6), 50_00),
        (row(2, 6), 2_01),
        (row(2, 8), 1),
        // A limit without a price, and no type at all.
        (row(2, 5), 0),
        (row(2, 5), 4),
        (row(2, 7), 0),
        (row(2, 7), 20_000_001),
    ];
    for marked in [0, 1] {
        damages.extend([
            (row(marked, 0), 3),
            (row(marked, 0), u32::MAX),
            (row(marked, 1), 0),
            (row(marked, 2), 3),
            (row(marked, 2), u32::MAX),
            (row(marked, 3), 2),
            (row(marked, 4), 2),
            (row(marked, 5), 1),
            (row(marked, 5), 3),
            (row(marked, 5), 4),
            (row(marked, 6), 0),
            (row(marked, 6), 2_01),
            (row(marked, 6), 10_000_001),
            (row(marked, 7), 0),
            (row(marked, 7), 20_000_001),
        ]);
    }
    for free in [3, 31] {
        damages.extend((0..9).map(|word| (row(free, word), 1)));
    }
    damages
}

#[test]
fn number_8_for_a_security() {
    let whole = gate();
    for (word, value) in security_damages() {
        for security in 0..3 {
            let mut gate = whole.clone();
            gate.words[4 + SECURITY_WORDS * security + word] = value;
            let security = security as u16;
            let order = Order {
                security,
                ..buy(3, 50_00, 100)
            };
            // The kinds that read it.
            for event in [
                encode::session(OPEN),
                encode::session(BREAK),
                encode::setup(&Setup { security, ..SETUP }),
                encode::prices(&Prices { security, ..PRICES }),
                encode::figures(&Figures {
                    security,
                    ..FIGURES
                }),
                // 8 before 13.
                encode::figures(&Figures {
                    security,
                    old: 0,
                    ..FIGURES
                }),
                encode::order(&order),
                encode::order(&Order { number: 1, ..order }),
            ] {
                assert_eq!(would(&gate, &event), refused(8), "{word} {value}");
            }
            // Those that do not, and the next security.
            let next = (security + 1) % 3;
            for event in [
                encode::clock(100_001),
                encode::setup(&Setup {
                    security: next,
                    ..SETUP
                }),
                encode::prices(&Prices {
                    security: next,
                    ..PRICES
                }),
                encode::cancel(0, 1),
                encode::match_report(0, 1, 100),
                encode::rest(0, 4, 50_25),
            ] {
                assert_eq!(would(&gate, &event), OK);
            }
            let other = Order {
                security: next,
                ..order
            };
            assert_eq!(gate.would(other), ACCEPT);
        }
    }
}

#[test]
fn number_8_for_a_desk() {
    let whole = gate();
    for (word, value) in desk_damages() {
        let mut gate = whole.clone();
        let start = gate.desk_start(0);
        gate.words[start + word] = value;
        for event in [
            encode::session(OPEN),
            encode::session(CLOSED),
            encode::order(&buy(3, 50_00, 100)),
            encode::order(&buy(1, 50_00, 100)),
            encode::order(&priceless(MP, BUY, 3)),
            encode::order(&priceless(ATO, BUY, 3)),
            encode::cancel(0, 1),
            encode::cancel(0, 77),
            encode::match_report(0, 1, 100),
            encode::match_report(0, 77, 0),
            encode::rest(0, 4, 50_25),
            encode::rest(0, 77, 50_25),
        ] {
            assert_eq!(would(&gate, &event), refused(8), "{word} {value}");
        }
        for event in [
            encode::clock(100_000),
            encode::setup(&SETUP),
            encode::prices(&PRICES),
            encode::figures(&FIGURES),
        ] {
            assert_eq!(would(&gate, &event), OK);
        }
        let other = Order {
            customer: 1,
            ..buy(3, 50_00, 100)
        };
        assert_eq!(gate.would(other), ACCEPT);
        assert_eq!(gate.cancel(1, 1), refused(10));
        assert_eq!(would(&gate, &encode::rest(1, 4, 50_25)), refused(10));
    }
}

#[test]
fn number_8_for_a_cancelled_row_that_is_no_limit() {
    let whole = gate();
    let row = whole.desk_start(0) + 3 + 9;
    for order_type in [1, 2, 3] {
        let mut gate = whole.clone();
        gate.words[row + 5] = order_type;
        gate.words[row + 6] = 0;
        assert_eq!(would(&gate, &encode::cancel(0, 1)), refused(8));
        gate.words[row] = 1;
        gate.words[row + 8] = 0;
        assert_eq!(would(&gate, &encode::cancel(0, 1)), OK);
    }
}

#[test]
fn sound_words_at_the_ends_of_their_ranges_are_not_refused_8() {
    let row = |row: usize, word: usize| 3 + 9 * row + word;
    let mut gate = gate();
    let start = gate.desk_start(0);
    for (word, value) in [
        (row(0, 1), u32::MAX),
        (row(0, 2), 2),
        (row(0, 3), 1),
        (row(0, 4), 1),
        (row(0, 6), 10_000_000),
        (row(0, 7), 20_000_000),
        (row(1, 6), 1),
        (row(1, 7), 1),
        (row(1, 8), 0),
        (0, u32::MAX),
        (1, u32::MAX),
        (2, u32::MAX),
    ] {
        gate.words[start + word] = value;
        assert_eq!(would(&gate, &encode::session(CLOSED)), OK, "{word} {value}");
    }
    // ATO, ATC and MP rows, whatever the session.
    for order_type in [1, 2, 3] {
        gate.words[start + row(0, 5)] = order_type;
        gate.words[start + row(0, 6)] = 0;
        let mut after = gate.clone();
        after.session(CLOSED);
        assert_eq!(after.numbers(0), [2]);
    }
}

#[test]
fn number_9() {
    let mut gate = gate();
    for number in [1, 2, 4] {
        for order in [
            buy(number, 50_00, 100),
            // Whatever the verdict would be, and whatever the type.
            buy(number, 50_00, 0),
            priceless(MP, BUY, number),
            priceless(ATO, BUY, number),
        ] {
            assert_eq!(gate.order(order), refused(9));
        }
    }
    let other = Order {
        customer: 1,
        ..buy(1, 50_00, 100)
    };
    assert_eq!(gate.would(other), ACCEPT);
    gate.clock(160_000);
    assert_eq!(gate.would(buy(2, 50_00, 100)), refused(9));
    gate.clock(160_001);
    assert_eq!(gate.would(buy(2, 50_00, 100)), ACCEPT);
    assert_eq!(gate.would(priceless(MP, BUY, 2)), ACCEPT);
    assert_eq!(gate.would(buy(1, 50_00, 100)), refused(9));
}

#[test]
fn numbers_10_and_11() {
    let mut gate = gate();
    // Unknown, cancelled, another customer's.
    for (customer, number) in [(0, 3), (0, 2), (1, 1)] {
        assert_eq!(gate.cancel(customer, number), refused(10));
        assert_eq!(gate.match_report(customer, number, 100), refused(10));
        assert_eq!(gate.match_report(customer, number, 0), refused(10));
    }
    for volume in [0, 501, u32::MAX] {
        assert_eq!(gate.match_report(0, 1, volume), refused(11));
    }
    assert_eq!(gate.match_report(0, 1, 1), OK);
    assert_eq!(gate.match_report(0, 1, 500), refused(11));
    assert_eq!(gate.match_report(0, 1, 499), OK);
    assert_eq!(gate.match_report(0, 1, 1), refused(10));
    assert_eq!(gate.cancel(0, 1), refused(10));
}

#[test]
fn number_12() {
    let mut gate = Gate::new(2, 1);
    gate.session(OPEN)
        .ok(&setup(1, 0, 0, 0))
        .ok(&prices(MAIN, [0, 50_00, 49_75, 50_25]));
    for number in 1..=31 {
        assert_eq!(gate.order(buy(number, 49_00, 100)), ACCEPT);
    }
    assert_eq!(gate.would(buy(32, 49_00, 100)), ACCEPT);
    assert_eq!(gate.order(buy(32, 49_00, 100)), ACCEPT);
    assert_eq!(gate.counters(0), [32, 0, 0]);

    // Accept and warn are refused and not counted; rejections go on.
    assert_eq!(gate.order(buy(33, 49_00, 100)), refused(12));
    assert_eq!(gate.order(buy(33, 90_00, 100)), refused(12));
    assert_eq!(gate.order(priceless(MP, BUY, 33)), refused(12));
    assert_eq!(gate.counters(0), [32, 0, 0]);
    assert_eq!(gate.order(buy(33, 49_00, 0)), V);
    assert_eq!(gate.order(sell(33, 49_00, 100)), W);
    assert_eq!(gate.order(priceless(ATO, BUY, 33)), S);
    assert_eq!(gate.order(buy(5, 49_00, 100)), refused(9));
    assert_eq!(gate.counters(0), [32, 0, 3]);
    let other = Order {
        customer: 1,
        ..buy(33, 49_00, 100)
    };
    assert_eq!(gate.would(other), ACCEPT);

    // A cancelled row counts for its minute.
    assert_eq!(gate.cancel(0, 7), OK);
    gate.clock(60_000);
    assert_eq!(gate.order(buy(33, 49_00, 100)), refused(12));
    gate.clock(60_001);
    assert_eq!(gate.would(buy(7, 49_00, 100)), ACCEPT);
    assert_eq!(gate.order(buy(33, 90_00, 100)), WARN_30);
    let numbers: Vec<u32> = (1..=33).filter(|&number| number != 7).collect();
    assert_eq!(gate.numbers(0), numbers);
    assert_eq!(gate.counters(0), [32, 1, 3]);
    assert_eq!(gate.order(buy(34, 49_00, 100)), refused(12));

    // ATO and ATC fill a desk as well.
    let mut gate = Gate::new(1, 1);
    gate.session(PRE_OPEN);
    for number in 1..=32 {
        assert_eq!(gate.order(priceless(ATO, BUY, number)), ACCEPT);
    }
    assert_eq!(gate.order(priceless(ATO, BUY, 33)), refused(12));
    assert_eq!(gate.cancel(0, 32), OK);
    assert_eq!(gate.order(priceless(ATO, BUY, 33)), ACCEPT);
}

#[test]
fn number_13() {
    let gate = gate();
    let with = |figures: Figures| would(&gate, &encode::figures(&figures));
    let numbers = [0, 1, 49_99, 50_00, 50_01, u32::MAX];
    for dividend in numbers {
        for subscription in numbers {
            for old in [0, 1, 2, u16::MAX] {
                for new in [0, 1, 3, u16::MAX] {
                    let figures = Figures {
                        security: 1,
                        dividend,
                        subscription,
                        old,
                        new,
                    };
                    let fits = old > 0 && dividend < 50_00;
                    let expected = if fits { OK } else { refused(13) };
                    assert_eq!(with(figures), expected, "{figures:?}");
                }
            }
        }
    }
    // Security 2 has no prior close, so no dividend is below it.
    for dividend in [0, 1, u32::MAX] {
        let figures = Figures {
            security: 2,
            dividend,
            ..FIGURES
        };
        assert_eq!(with(figures), refused(13), "{figures:?}");
    }
}

/// "they are sound if all zero or as kind 9 could have set them"
#[test]
fn sound_figures() {
    let mut gate = gate();
    for (close, figures, is_sound) in [
        (50_00, [0, 0, 0, 0], true),
        (0, [0, 0, 0, 0], true),
        (50_00, [0, 0, 1, 0], true),
        (50_00, [49_99, u32::MAX, 65_535, 65_535], true),
        (50_00, [50_00, 0, 1, 0], false),
        (50_00, [u32::MAX, 0, 1, 0], false),
        (50_00, [0, 0, 65_536, 0], false),
        (50_00, [0, 0, 1, 65_536], false),
        (50_00, [0, 0, 0, 1], false),
        (50_00, [0, 1, 0, 0], false),
        (50_00, [1, 0, 0, 0], false),
        (1, [0, 5, 1, 1], true),
        (1, [1, 5, 1, 1], false),
        (0, [0, 0, 1, 0], false),
        (10_000_000, [9_999_999, 0, 1, 0], true),
        (10_000_000, [10_000_000, 0, 1, 0], false),
    ] {
        let record = &mut gate.words[4 + SECURITY_WORDS..][..SECURITY_WORDS];
        record[3] = close;
        record[13..].copy_from_slice(&figures);
        let sound = encode::prices(&Prices {
            security: 1,
            ..PRICES
        });
        let expected = if is_sound { OK } else { refused(8) };
        for event in [sound, encode::session(OPEN)] {
            assert_eq!(would(&gate, &event), expected, "{close} {figures:?}");
        }
    }
}
