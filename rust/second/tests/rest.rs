//! Request 1 of paper 02: the row of an accepted MP order, and kind 8, by which
//! what is left of it becomes a limit.

mod common;

use common::*;
use second::answer::Answer;
use second::encode;
use second::event::Order;

/// Two customers, two securities, open session, clock 100,000; security 0 has
/// bid 49.75 and offer 50.25 on both boards.
fn open() -> Gate {
    let mut gate = Gate::new(2, 2);
    gate.session(OPEN)
        .clock(100_000)
        .ok(&prices(MAIN, [0, 50_00, 49_75, 50_25]))
        .ok(&prices(FOREIGN, [0, 50_00, 49_75, 50_25]));
    gate
}

fn mp(side: u8, number: u32, volume: u32) -> Order {
    Order {
        volume,
        ..priceless(MP, side, number)
    }
}

/// The gate's answer if it were sent now; a refusal is checked to change nothing.
fn would(gate: &Gate, event: &[u8]) -> Answer {
    gate.clone().send(event)
}

// ---- the row of an MP order ----

#[test]
fn a_row_of_type_3_without_a_price() {
    let mut gate = open();
    let order = Order {
        customer: 1,
        board: FOREIGN,
        ..mp(SELL, 9, 700)
    };
    assert_eq!(gate.order(buy(1, 49_00, 100)), ACCEPT);
    assert_eq!(gate.order(order), ACCEPT);
    assert_eq!(gate.row(1, 0), [1, 9, 0, 1, 1, 3, 0, 700, 0]);
    assert_eq!(gate.counters(1), [1, 0, 0]);
    assert_eq!(gate.order(mp(BUY, 9, 200)), ACCEPT);
    assert_eq!(gate.row(0, 1), [1, 9, 0, 0, 0, 3, 0, 200, 0]);
    assert_eq!(gate.counters(0), [2, 0, 0]);
}

#[test]
fn a_rejected_mp_order_takes_no_row() {
    let mut gate = open();
    assert_eq!(gate.order(sell(1, 50_25, 100)), ACCEPT);
    let no_offer = Order {
        security: 1,
        ..mp(BUY, 2, 100)
    };
    assert_eq!(gate.order(no_offer), S);
    assert_eq!(gate.order(mp(BUY, 2, 150)), V);
    assert_eq!(gate.order(mp(BUY, 2, 100)), W);
    assert_eq!(gate.numbers(0), [1]);
    assert_eq!(gate.counters(0), [1, 0, 3]);
}

#[test]
fn refusal_12_covers_mp() {
    let mut gate = open();
    for number in 1..=31 {
        assert_eq!(gate.order(buy(number, 49_00, 100)), ACCEPT);
    }
    let mut full = gate.clone();
    assert_eq!(full.order(mp(BUY, 32, 100)), ACCEPT);
    assert_eq!(full.row(0, 31), [1, 32, 0, 0, 0, 3, 0, 100, 0]);
    assert_eq!(full.order(mp(BUY, 33, 100)), refused(12));
    assert_eq!(full.order(buy(33, 49_00, 100)), refused(12));
    assert_eq!(full.counters(0), [32, 0, 0]);
    // A rejection needs no row.
    assert_eq!(full.order(mp(BUY, 33, 150)), V);
    // The last row is lowered, made a limit, and gone, and then there is room.
    assert_eq!(full.match_report(0, 32, 50), OK);
    assert_eq!(full.order(mp(BUY, 33, 100)), refused(12));
    assert_eq!(full.rest(0, 32, 50_25), OK);
    assert_eq!(full.order(mp(BUY, 33, 100)), refused(12));
    assert_eq!(full.match_report(0, 32, 50), OK);
    assert_eq!(full.order(mp(BUY, 33, 100)), ACCEPT);

    // A cancel counts for its minute.
    assert_eq!(gate.order(buy(32, 49_00, 100)), ACCEPT);
    assert_eq!(gate.cancel(0, 7), OK);
    gate.clock(160_000);
    assert_eq!(gate.order(mp(BUY, 33, 100)), refused(12));
    assert_eq!(gate.counters(0), [32, 0, 0]);
    gate.clock(160_001);
    assert_eq!(gate.order(mp(BUY, 33, 100)), ACCEPT);
    let numbers: Vec<u32> = (1..=33).filter(|&number| number != 7).collect();
    assert_eq!(gate.numbers(0), numbers);
    assert_eq!(gate.counters(0), [33, 0, 0]);
}

#[test]
fn type_3_rows_fill_a_desk() {
    let mut gate = open();
    for number in 1..=32 {
        assert_eq!(gate.order(mp(SELL, number, 100)), ACCEPT);
    }
    for order in [mp(SELL, 33, 100), buy(33, 49_00, 100)] {
        assert_eq!(gate.order(order), refused(12));
    }
    assert_eq!(gate.cancel(0, 1), OK);
    assert_eq!(gate.order(mp(SELL, 33, 100)), ACCEPT);
}

#[test]
fn an_accepted_mp_order_removes_old_cancels_and_stands_last() {
    let mut gate = open();
    for number in [1, 2, 3] {
        assert_eq!(gate.order(buy(number, 49_00, 100)), ACCEPT);
    }
    assert_eq!(gate.cancel(0, 1), OK);
    gate.clock(100_001);
    assert_eq!(gate.cancel(0, 3), OK);

    gate.clock(160_000);
    let mut at_the_minute = gate.clone();
    assert_eq!(at_the_minute.order(mp(BUY, 4, 100)), ACCEPT);
    assert_eq!(at_the_minute.numbers(0), [1, 2, 3, 4]);
    assert_eq!(gate.would(mp(BUY, 1, 100)), refused(9));

    gate.clock(160_001);
    // One that is rejected leaves them.
    assert_eq!(gate.order(mp(BUY, 4, 150)), V);
    assert_eq!(gate.numbers(0), [1, 2, 3]);
    let mut again = gate.clone();
    assert_eq!(gate.order(mp(BUY, 4, 100)), ACCEPT);
    assert_eq!(gate.numbers(0), [2, 3, 4]);
    // The number of the row that goes may be the new one.
    assert_eq!(again.order(mp(BUY, 1, 100)), ACCEPT);
    assert_eq!(again.numbers(0), [2, 3, 1]);
    assert_eq!(again.row(0, 2), [1, 1, 0, 0, 0, 3, 0, 100, 0]);
}

#[test]
fn its_number_is_taken_while_it_stands() {
    let mut gate = open();
    assert_eq!(gate.order(mp(BUY, 5, 100)), ACCEPT);
    for order in [mp(BUY, 5, 100), mp(SELL, 5, 0), buy(5, 49_00, 100)] {
        assert_eq!(gate.order(order), refused(9));
    }
    let other = Order {
        customer: 1,
        ..mp(BUY, 5, 100)
    };
    assert_eq!(gate.would(other), ACCEPT);
    // No cancel is kept, so the number is free at once.
    let mut cancelled = gate.clone();
    assert_eq!(cancelled.cancel(0, 5), OK);
    assert_eq!(cancelled.order(mp(BUY, 5, 100)), ACCEPT);
    // As a limit it keeps its number, and for a minute after its cancel.
    assert_eq!(gate.rest(0, 5, 50_50), OK);
    assert_eq!(gate.order(mp(BUY, 5, 100)), refused(9));
    assert_eq!(gate.cancel(0, 5), OK);
    gate.clock(160_000);
    assert_eq!(gate.order(mp(BUY, 5, 100)), refused(9));
    gate.clock(160_001);
    assert_eq!(gate.order(mp(BUY, 5, 100)), ACCEPT);
}

// ---- kind 8 ----

#[test]
fn a_rest_makes_the_row_a_limit_in_its_place() {
    let mut gate = open();
    let foreign = Order {
        board: FOREIGN,
        ..mp(SELL, 2, 300)
    };
    assert_eq!(gate.order(buy(1, 49_00, 100)), ACCEPT);
    assert_eq!(gate.order(foreign), ACCEPT);
    assert_eq!(gate.order(mp(BUY, 3, 400)), ACCEPT);
    assert_eq!(gate.cancel(0, 1), OK);
    // Neither a counter nor an old cancel is touched.
    gate.clock(200_000);
    let mut expected = gate.clone();
    let row = expected.desk_start(0) + 3 + 9;
    expected.words[row + 5] = 0;
    expected.words[row + 6] = 49_50;
    assert_eq!(gate.rest(0, 2, 49_50), OK);
    assert_eq!(gate.words, expected.words);
    assert_eq!(gate.row(0, 1), [1, 2, 0, 1, 1, 0, 49_50, 300, 0]);
    // The other row of type 3 stays one.
    assert_eq!(gate.row(0, 2), [1, 3, 0, 0, 0, 3, 0, 400, 0]);
}

/// "Without such a row it gets refusal 10."
#[test]
fn only_an_open_row_of_type_3_has_a_rest() {
    let mut gate = Gate::new(2, 1);
    gate.session(PRE_OPEN);
    assert_eq!(gate.order(priceless(ATO, BUY, 1)), ACCEPT);
    assert_eq!(gate.rest(0, 1, 50_00), refused(10));
    let mut gate = Gate::new(2, 1);
    gate.session(PRE_CLOSE);
    assert_eq!(gate.order(priceless(ATC, BUY, 1)), ACCEPT);
    assert_eq!(gate.rest(0, 1, 50_00), refused(10));

    let mut gate = open();
    assert_eq!(gate.order(buy(1, 49_00, 100)), ACCEPT);
    assert_eq!(gate.order(buy(2, 49_00, 100)), ACCEPT);
    assert_eq!(gate.cancel(0, 2), OK);
    assert_eq!(gate.order(mp(BUY, 3, 100)), ACCEPT);
    assert_eq!(gate.order(mp(BUY, 4, 100)), ACCEPT);
    assert_eq!(gate.cancel(0, 4), OK);
    // A limit, a cancelled row, one that went, one that never was.
    for number in [1, 2, 4, 5, u32::MAX] {
        assert_eq!(gate.rest(0, number, 50_00), refused(10));
    }
    // Another customer's.
    assert_eq!(gate.rest(1, 3, 50_00), refused(10));
    assert_eq!(gate.rest(0, 3, 50_00), OK);
    // The same row twice, at the same price or another.
    for price in [50_00, 50_25] {
        assert_eq!(gate.rest(0, 3, price), refused(10));
    }
    assert_eq!(gate.cancel(0, 3), OK);
    assert_eq!(gate.rest(0, 3, 50_00), refused(10));
}

#[test]
fn conditions_in_the_order_of_the_table() {
    let mut gate = open();
    assert_eq!(gate.order(mp(BUY, 1, 100)), ACCEPT);
    let mut damaged = gate.clone();
    let row = damaged.desk_start(0) + 3;
    damaged.words[row + 6] = 50_00;
    // Each meets its own condition and all later ones.
    for (customer, number, price, answer) in [
        (2, 0, 2_01, 4),
        (u16::MAX, 0, 2_01, 4),
        (0, 0, 2_01, 5),
        (0, 2, 2_01, 6),
        (0, 2, 50_00, 8),
    ] {
        let event = encode::rest(customer, number, price);
        assert_eq!(would(&damaged, &event), refused(answer));
    }
    assert_eq!(gate.rest(0, 2, 50_00), refused(10));
    assert_eq!(gate.rest(0, 1, 50_00), OK);
}

#[test]
fn the_price_is_on_the_ladder() {
    let mut gate = open();
    assert_eq!(gate.order(mp(BUY, 1, 100)), ACCEPT);
    for price in [
        0,
        2_01,
        5_01,
        10_05,
        400_01,
        10_000_001,
        10_000_200,
        u32::MAX,
    ] {
        assert_eq!(gate.rest(0, 1, price), refused(6), "{price}");
    }
    for price in [1, 1_99, 2_00, 400_00, 10_000_000] {
        assert_eq!(would(&gate, &encode::rest(0, 1, price)), OK, "{price}");
    }
}

/// It is no order: no session, size or price rule is asked, and nothing counts.
#[test]
fn a_rest_gets_no_verdict() {
    let mut gate = open();
    gate.ok(&setup(1, 0, 50_00, 0));
    assert_eq!(gate.order(sell(1, 60_00, 100)), ACCEPT);
    assert_eq!(gate.order(mp(BUY, 2, 20_000_000)), ACCEPT);
    let counters = gate.counters(0);
    for session in [CLOSED, PRE_OPEN, OPEN, BREAK, PRE_CLOSE] {
        // No history leaves a row of type 3 outside session 2, but the words
        // are sound.
        gate.words[3] = u32::from(session);
        for price in [1, 60_00, 10_000_000] {
            let mut after = gate.clone();
            assert_eq!(after.rest(0, 2, price), OK, "{session} {price}");
            assert_eq!(after.counters(0), counters);
        }
    }
}

// ---- W ----

/// Every type of order, on both sides of every price that a comparison with the
/// row could look at, while the row has type 3.
#[test]
fn no_order_meets_a_row_of_type_3() {
    for side in [BUY, SELL] {
        let other = 1 - side;
        for session in [PRE_OPEN, OPEN, PRE_CLOSE] {
            let mut gate = open();
            assert_eq!(gate.order(mp(side, 1, 100)), ACCEPT);
            gate.words[3] = u32::from(session);
            for projected in [0, 1, 50_00, 10_000_000] {
                gate.ok(&prices(MAIN, [projected, 0, 49_75, 50_25]));
                // So that warn 10 has nothing against them.
                let near = if projected == 0 { 50_00 } else { projected };
                let limit = Order {
                    side: other,
                    ..buy(2, near, 100)
                };
                assert_eq!(gate.would(limit), ACCEPT, "{session} {projected}");
            }
            let fitting = match session {
                PRE_OPEN => ATO,
                PRE_CLOSE => ATC,
                _ => MP,
            };
            assert_eq!(gate.would(priceless(fitting, other, 2)), ACCEPT);
        }
    }
    // Two MP orders of one customer, either way around.
    let mut gate = open();
    assert_eq!(gate.order(mp(BUY, 1, 100)), ACCEPT);
    assert_eq!(gate.order(mp(SELL, 2, 100)), ACCEPT);
    assert_eq!(gate.order(mp(BUY, 3, 100)), ACCEPT);
}

#[test]
fn w_once_it_is_a_limit() {
    // A buy left at 50.50: sells at or below it.
    let mut gate = open();
    assert_eq!(gate.order(mp(BUY, 1, 300)), ACCEPT);
    assert_eq!(gate.would(sell(2, 50_50, 100)), ACCEPT);
    assert_eq!(gate.rest(0, 1, 50_50), OK);
    for (price, answer) in [(50_25, W), (50_50, W), (50_75, ACCEPT)] {
        assert_eq!(gate.would(sell(2, price, 100)), answer, "{price}");
    }
    // MP by the best price, equal and not beyond.
    for (bid, answer) in [(50_25, ACCEPT), (50_50, W), (50_75, ACCEPT)] {
        gate.ok(&prices(MAIN, [0, 50_00, bid, 51_00]));
        assert_eq!(gate.would(mp(SELL, 2, 100)), answer, "{bid}");
    }
    // Other boards, securities, channels, sides and customers do not meet it.
    let meets = sell(2, 50_50, 100);
    for order in [
        Order {
            board: FOREIGN,
            ..meets
        },
        Order {
            security: 1,
            ..meets
        },
        Order {
            channel: DMA,
            ..meets
        },
        Order { side: BUY, ..meets },
        Order {
            customer: 1,
            ..meets
        },
    ] {
        assert_eq!(gate.would(order), ACCEPT, "{order:?}");
    }

    // A sell left at 49.50: buys at or above it.
    let mut gate = open();
    assert_eq!(gate.order(mp(SELL, 1, 300)), ACCEPT);
    assert_eq!(gate.rest(0, 1, 49_50), OK);
    for (price, answer) in [(49_25, ACCEPT), (49_50, W), (49_75, W)] {
        assert_eq!(gate.would(buy(2, price, 100)), answer, "{price}");
    }
    for (offer, answer) in [(49_25, ACCEPT), (49_50, W), (49_75, ACCEPT)] {
        gate.ok(&prices(MAIN, [0, 50_00, 49_00, offer]));
        assert_eq!(gate.would(mp(BUY, 2, 100)), answer, "{offer}");
    }
}

#[test]
fn w_by_the_projected_price_after_the_session() {
    let mut gate = open();
    assert_eq!(gate.order(mp(BUY, 1, 300)), ACCEPT);
    assert_eq!(gate.rest(0, 1, 50_50), OK);
    gate.session(PRE_CLOSE);
    assert_eq!(gate.would(priceless(ATC, SELL, 2)), ACCEPT);
    for (projected, answer) in [(50_25, W), (50_50, W), (50_75, ACCEPT)] {
        gate.ok(&prices(MAIN, [projected, 50_00, 0, 0]));
        assert_eq!(gate.would(priceless(ATC, SELL, 2)), answer, "{projected}");
    }
}

// ---- cancel, match and session ----

#[test]
fn a_cancel_before_the_rest_is_not_kept() {
    let mut gate = open();
    assert_eq!(gate.order(buy(1, 49_00, 100)), ACCEPT);
    assert_eq!(gate.order(mp(BUY, 2, 100_000)), ACCEPT);
    assert_eq!(gate.order(buy(3, 49_00, 100)), ACCEPT);
    assert_eq!(gate.cancel(0, 2), OK);
    assert_eq!(gate.numbers(0), [1, 3]);
    assert_eq!(gate.row(0, 2), [0; 9]);
    assert_eq!(gate.cancel(0, 2), refused(10));
    assert_eq!(gate.would(buy(4, 50_00, 60_000)), ACCEPT);
}

#[test]
fn a_cancel_after_the_rest_is_kept_for_its_minute() {
    let mut gate = open();
    assert_eq!(gate.order(mp(BUY, 1, 120_000)), ACCEPT);
    assert_eq!(gate.match_report(0, 1, 20_000), OK);
    assert_eq!(gate.rest(0, 1, 50_50), OK);
    assert_eq!(gate.would(sell(2, 50_50, 100)), W);
    assert_eq!(gate.cancel(0, 1), OK);
    assert_eq!(gate.row(0, 0), [2, 1, 0, 0, 0, 0, 50_50, 100_000, 100_000]);
    assert_eq!(gate.would(sell(2, 50_50, 100)), ACCEPT);
    gate.clock(160_000);
    assert_eq!(gate.would(buy(2, 50_50, 60_000)), P);
    assert_eq!(gate.would(buy(2, 50_25, 60_000)), ACCEPT);
    assert_eq!(gate.would(buy(2, 50_50, 59_400)), ACCEPT);
    assert_eq!(gate.would(mp(BUY, 2, 60_000)), ACCEPT);
    gate.clock(160_001);
    assert_eq!(gate.order(buy(2, 50_50, 60_000)), ACCEPT);
    assert_eq!(gate.numbers(0), [2]);
}

#[test]
fn a_match_lowers_it_before_and_after_the_rest() {
    let mut gate = open();
    assert_eq!(gate.order(mp(BUY, 1, 500)), ACCEPT);
    assert_eq!(gate.order(mp(BUY, 2, 500)), ACCEPT);
    for volume in [0, 501, u32::MAX] {
        assert_eq!(gate.match_report(0, 1, volume), refused(11));
    }
    assert_eq!(gate.match_report(0, 1, 499), OK);
    assert_eq!(gate.row(0, 0), [1, 1, 0, 0, 0, 3, 0, 1, 0]);
    let mut whole = gate.clone();
    assert_eq!(whole.match_report(0, 1, 1), OK);
    assert_eq!(whole.numbers(0), [2]);
    assert_eq!(whole.rest(0, 1, 50_25), refused(10));
    assert_eq!(whole.match_report(0, 1, 1), refused(10));

    assert_eq!(gate.rest(0, 2, 50_50), OK);
    assert_eq!(gate.match_report(0, 2, 501), refused(11));
    assert_eq!(gate.match_report(0, 2, 100), OK);
    assert_eq!(gate.row(0, 1), [1, 2, 0, 0, 0, 0, 50_50, 400, 0]);
    assert_eq!(gate.match_report(0, 2, 400), OK);
    assert_eq!(gate.numbers(0), [1]);
    // Both of one order: a part, the rest, another part.
    assert_eq!(gate.rest(0, 1, 50_25), OK);
    assert_eq!(gate.match_report(0, 1, 1), OK);
    assert!(gate.numbers(0).is_empty());
    assert_eq!(gate.counters(0), [2, 0, 0]);
}

#[test]
fn a_session_change_removes_it_unless_it_is_a_limit() {
    let mut gate = open();
    let other = Order {
        customer: 1,
        ..mp(SELL, 1, 100)
    };
    assert_eq!(gate.order(mp(BUY, 1, 100)), ACCEPT);
    assert_eq!(gate.order(mp(BUY, 2, 100)), ACCEPT);
    assert_eq!(gate.order(buy(3, 49_00, 100)), ACCEPT);
    assert_eq!(gate.order(mp(BUY, 4, 100)), ACCEPT);
    assert_eq!(gate.order(other), ACCEPT);
    assert_eq!(gate.rest(0, 2, 50_25), OK);
    // The same session changes nothing.
    let before = gate.clone();
    gate.session(OPEN);
    assert_eq!(gate.words, before.words);
    for session in [CLOSED, PRE_OPEN, BREAK, PRE_CLOSE] {
        let mut after = gate.clone();
        after.session(session);
        assert_eq!(after.numbers(0), [2, 3]);
        assert_eq!(after.row(0, 0), [1, 2, 0, 0, 0, 0, 50_25, 100, 0]);
        assert_eq!(after.row(0, 2), [0; 9]);
        assert!(after.numbers(1).is_empty());
        assert_eq!(after.rest(0, 1, 50_25), refused(10));
        assert_eq!(after.counters(0), [4, 0, 0]);
    }
}

// ---- damaged rows ----

#[test]
fn a_damaged_row_of_type_3() {
    let mut gate = open();
    assert_eq!(gate.order(mp(BUY, 1, 100)), ACCEPT);
    let row = gate.desk_start(0) + 3;
    let events = [
        encode::session(OPEN),
        encode::session(CLOSED),
        encode::order(&buy(2, 49_00, 100)),
        encode::order(&mp(BUY, 2, 100)),
        encode::cancel(0, 1),
        encode::match_report(0, 1, 100),
        encode::rest(0, 1, 50_25),
    ];
    for damages in [
        &[(6, 1)][..],
        &[(6, 50_00)],
        &[(6, 2_01)],
        &[(6, u32::MAX)],
        &[(0, 2)],
        &[(0, 2), (8, 100_000)],
        &[(0, 2), (6, 50_00), (8, 100_000)],
        &[(8, 100_000)],
        &[(5, 4)],
        &[(5, 4), (6, 50_00)],
        &[(5, u32::MAX)],
        &[(7, 0)],
    ] {
        let mut damaged = gate.clone();
        for &(word, value) in damages {
            damaged.words[row + word] = value;
        }
        for event in &events {
            assert_eq!(would(&damaged, event), refused(8), "{damages:?} {event:?}");
        }
    }
    for event in &events {
        assert!(!matches!(would(&gate, event), Answer::Refused(_)));
    }
}
