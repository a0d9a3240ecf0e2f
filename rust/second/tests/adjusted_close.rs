//! Request 2 of paper 02: prior closes between two steps, the nearest positions
//! of a price, and warn 10, refusal 6 and soundness by them.

mod common;

use common::*;
use second::answer::Answer;
use second::encode;
use second::event::Order;
use second::ladder::{self, LAST_PRICE, Nearest};

#[test]
fn nothing_on_the_ladder_is_nearer() {
    let prices = legal_prices();
    // The first position whose price is at or above the price asked for.
    let mut upper = 1;
    for price in 1..=LAST_PRICE {
        if prices[upper] < price {
            upper += 1;
        }
        let legal = prices[upper] == price;
        let expected = Nearest {
            lower: if legal { upper } else { upper - 1 } as u32,
            upper: upper as u32,
            legal,
        };
        assert_eq!(ladder::nearest(price), Some(expected), "{price}");
        assert_eq!(ladder::legal(price), legal, "{price}");
    }
    assert_eq!(upper, prices.len() - 1);
    for price in [0, LAST_PRICE + 1, u32::MAX] {
        assert_eq!(ladder::nearest(price), None, "{price}");
    }
}

/// A session with this prior close and no other price; the security is free, so
/// that Q would speak if it took the prior close.
fn after_close(session: u8, close: u32) -> Pair {
    Pair::new()
        .ok(&encode::session(session))
        .ok(&setup(1, 0, close, 0))
}

fn by(channel: u8, price: u32) -> Order {
    Order {
        channel,
        ..buy(1, price, 100)
    }
}

#[test]
fn ten_positions_from_65_60() {
    for session in [PRE_OPEN, PRE_CLOSE] {
        let pair = after_close(session, 65_60);
        assert_eq!(pair.gate.security(0)[3], 65_60);
        for channel in [ONLINE, DMA] {
            for side in [BUY, SELL] {
                let at = |price| Order {
                    side,
                    ..by(channel, price)
                };
                for pass in [63_25, 63_50, 65_50, 65_75, 67_75, 68_00] {
                    assert_eq!(pair.would(at(pass)), ACCEPT, "{pass}");
                }
                for warn in [1, 62_75, 63_00, 68_25, 68_50, 10_000_000] {
                    assert_eq!(pair.would(at(warn)), WARN_10, "{warn}");
                }
            }
        }
        let foreign = Order {
            board: FOREIGN,
            ..by(ONLINE, 68_25)
        };
        for passing in [by(FRONT, 68_25), foreign] {
            assert_eq!(pair.would(passing), ACCEPT);
        }
    }
    // In session 2 it is no reference.
    assert_eq!(after_close(OPEN, 65_60).would(by(ONLINE, 1)), ACCEPT);
}

/// A legal reference is its own lower and upper position.
#[test]
fn ten_positions_from_65_50_and_65_75() {
    for (close, warn_down, pass_down, pass_up, warn_up) in [
        (65_50, 62_75, 63_00, 68_00, 68_25),
        (65_75, 63_00, 63_25, 68_25, 68_50),
    ] {
        let pair = after_close(PRE_OPEN, close);
        for (price, answer) in [
            (warn_down, WARN_10),
            (pass_down, ACCEPT),
            (pass_up, ACCEPT),
            (warn_up, WARN_10),
        ] {
            assert_eq!(pair.would(by(DMA, price)), answer, "{close} {price}");
        }
    }
}

#[test]
fn one_satang_beside_the_first_price_of_each_band() {
    // The close; eleven and ten positions down from the upper position, ten and
    // eleven up from the lower.
    let table = [
        // Below 2.00 every satang is a step.
        (1_99, [1_88, 1_89, 2_18, 2_20]),
        (2_01, [1_90, 1_91, 2_20, 2_22]),
        (4_99, [4_78, 4_80, 5_45, 5_50]),
        (5_01, [4_80, 4_82, 5_50, 5_55]),
        (9_99, [9_45, 9_50, 10_90, 11_00]),
        (10_01, [9_50, 9_55, 11_00, 11_10]),
        (24_99, [23_90, 24_00, 27_25, 27_50]),
        (25_01, [24_00, 24_10, 27_50, 27_75]),
        (99_99, [97_25, 97_50, 104_50, 105_00]),
        (100_01, [97_50, 97_75, 105_00, 105_50]),
        (199_99, [194_50, 195_00, 209_00, 210_00]),
        (200_01, [195_00, 195_50, 210_00, 211_00]),
        (399_99, [389_00, 390_00, 418_00, 420_00]),
        (400_01, [390_00, 391_00, 420_00, 422_00]),
    ];
    for (close, prices) in table {
        let pair = after_close(PRE_CLOSE, close);
        for (price, answer) in prices.into_iter().zip([WARN_10, ACCEPT, ACCEPT, WARN_10]) {
            assert_eq!(pair.would(by(ONLINE, price)), answer, "{close} {price}");
        }
    }
}

#[test]
fn at_the_ends_of_the_ladder() {
    let table = [
        (1, &[(1, ACCEPT), (11, ACCEPT), (12, WARN_10)][..]),
        (11, &[(1, ACCEPT), (21, ACCEPT), (22, WARN_10)]),
        (12, &[(1, WARN_10), (2, ACCEPT), (22, ACCEPT)]),
        // Between 99,978.00 and 99,980.00.
        (9_997_801, &[(9_999_800, ACCEPT), (10_000_000, WARN_10)]),
        (9_997_999, &[(9_995_800, WARN_10), (9_996_000, ACCEPT)]),
        // Ten positions up from 99,980.00 is the last one.
        (9_998_001, &[(9_996_000, WARN_10), (10_000_000, ACCEPT)]),
        // The upper position is the last one.
        (9_999_999, &[(9_997_800, WARN_10), (9_998_000, ACCEPT)]),
        (9_999_999, &[(10_000_000, ACCEPT)]),
        (10_000_000, &[(9_997_800, WARN_10), (9_998_000, ACCEPT)]),
        (10_000_000, &[(10_000_000, ACCEPT)]),
    ];
    for (close, orders) in table {
        let pair = after_close(PRE_OPEN, close);
        for &(price, answer) in orders {
            assert_eq!(pair.would(by(ONLINE, price)), answer, "{close} {price}");
        }
    }
}

/// Every close up to 420.00, where the widest step has long begun, and some
/// above, by the walked list.
#[test]
fn ten_positions_from_every_close() {
    let prices = legal_prices();
    let closes = (1..=420_00).chain((420_01..=LAST_PRICE).step_by(9_973));
    for close in closes {
        let lower = prices.partition_point(|&price| price <= close) - 1;
        let upper = prices.partition_point(|&price| price < close);
        let pair = after_close(PRE_OPEN, close);
        for (position, answer) in [
            (upper.checked_sub(11), WARN_10),
            (upper.checked_sub(10), ACCEPT),
            (Some(lower + 10), ACCEPT),
            (Some(lower + 11), WARN_10),
        ] {
            let price = position.and_then(|position| prices.get(position));
            if let Some(&price) = price.filter(|&&price| price > 0) {
                assert_eq!(pair.would(by(ONLINE, price)), answer, "{close} {price}");
            }
        }
    }
}

#[test]
fn projected_and_last_sale_go_before_the_close() {
    let is_reference = |pair: &Pair, [warn_down, pass_down, pass_up, warn_up]: [u32; 4]| {
        for (price, answer) in [
            (warn_down, WARN_10),
            (pass_down, ACCEPT),
            (pass_up, ACCEPT),
            (warn_up, WARN_10),
        ] {
            assert_eq!(pair.would(by(ONLINE, price)), answer, "{price}");
        }
    };
    let close = [63_00, 63_25, 68_00, 68_25];
    let last = [23_40, 23_50, 26_25, 26_50];
    let projected = [9_45, 9_50, 11_00, 11_10];

    // Free: C would speak before warn 10. Q lets all of these prices pass.
    let mut pair = after_close(PRE_OPEN, 65_60);
    is_reference(&pair, close);
    pair = pair.ok(&prices(MAIN, [0, 24_50, 0, 0]));
    is_reference(&pair, last);
    pair = pair.ok(&prices(MAIN, [10_00, 24_50, 0, 0]));
    is_reference(&pair, projected);
    // A change of session takes the projected price away, and no other.
    pair = pair.ok(&encode::session(PRE_CLOSE));
    is_reference(&pair, last);
    // Neither bid nor offer nor a price of the foreign board is a reference.
    pair = pair
        .ok(&prices(MAIN, [0, 0, 24_40, 24_60]))
        .ok(&prices(FOREIGN, [10_00, 24_50, 24_40, 24_60]));
    is_reference(&pair, close);
}

#[test]
fn neither_q_nor_warn_30_takes_the_close() {
    for session in [PRE_OPEN, OPEN, PRE_CLOSE] {
        let pair = after_close(session, 65_60);
        for price in [1, 32_75, 98_50, 10_000_000] {
            assert_eq!(pair.would(by(FRONT, price)), ACCEPT, "{session} {price}");
        }
    }
}

#[test]
fn a_setup_takes_any_close_up_to_10_000_000() {
    for close in [
        0, 1, 1_99, 2_00, 2_01, 4_99, 65_60, 400_01, 9_999_999, 10_000_000,
    ] {
        let mut pair = Pair::new();
        assert_eq!(pair.send(&setup(0, 0, close, 0)), OK, "{close}");
        assert_eq!(pair.gate.security(0)[3], close);
        // It stays through every kind that reads the record.
        assert_eq!(pair.send(&prices(MAIN, [0; 4])), OK, "{close}");
        assert_eq!(pair.send(&encode::session(PRE_OPEN)), OK, "{close}");
        assert_eq!(pair.gate.security(0)[3], close);
    }
    for close in [10_000_001, 10_000_200, 1 << 31, u32::MAX] {
        let mut pair = Pair::new().ok(&setup(0, 0, 65_60, 0));
        assert_eq!(pair.send(&setup(0, 0, close, 0)), refused(6), "{close}");
        assert_eq!(pair.gate.security(0)[3], 65_60);
    }
}

#[test]
fn the_other_prices_stay_on_the_ladder() {
    let mut pair = after_close(OPEN, 65_60).ok(&prices(MAIN, [0, 0, 65_50, 65_75]));
    assert_eq!(pair.send(&encode::order(&priceless(MP, BUY, 9))), ACCEPT);
    for price in [2_01, 65_60, 399_99, 9_999_999, 10_000_001] {
        for board in [MAIN, FOREIGN] {
            for place in 0..4 {
                let mut quotes = [0; 4];
                quotes[place] = price;
                assert_eq!(pair.send(&prices(board, quotes)), refused(6), "{price}");
            }
        }
        assert_eq!(pair.would(by(ONLINE, price)), refused(6), "{price}");
        assert_eq!(pair.send(&encode::rest(0, 9, price)), refused(6), "{price}");
    }
}

#[test]
fn a_record_is_sound_with_any_close_up_to_10_000_000() {
    let mut gate = Gate::new(1, 2);
    gate.session(PRE_OPEN);
    let close = 4 + 3;
    let order = encode::order(&by(ONLINE, 65_50));
    let reads = [
        encode::session(PRE_OPEN),
        encode::session(OPEN),
        setup(0, 0, 65_60, 0),
        prices(MAIN, [0; 4]),
        order.clone(),
    ];
    for value in [0, 1, 2_01, 65_60, 399_99, 9_999_999, 10_000_000] {
        gate.words[close] = value;
        for event in &reads {
            let answer = gate.clone().send(event);
            assert!(!matches!(answer, Answer::Refused(_)), "{value} {event:?}");
        }
    }
    for value in [10_000_001, 10_000_200, 1 << 31, u32::MAX] {
        gate.words[close] = value;
        for event in &reads {
            assert_eq!(gate.clone().send(event), refused(8), "{value} {event:?}");
        }
        // Kinds that do not read this record, or another one.
        for event in [encode::clock(1), encode::cancel(0, 1)] {
            assert_ne!(gate.clone().send(&event), refused(8), "{value} {event:?}");
        }
        let mut other = order.clone();
        other[7] = 1;
        assert_eq!(gate.clone().send(&other), ACCEPT, "{value}");
    }
}
