//! The paper's section "Along each edge", line by line, as whole histories
//! through the gate; then the edges that it leaves to the second implementation.

mod common;

use common::*;
use second::encode;
use second::event::{Order, Setup};
use second::ladder;

// ---- The lines of the section ----

#[test]
fn positions() {
    assert_eq!(ladder::position(1_99), Some(199));
    assert_eq!(ladder::position(2_00), Some(200));
    assert_eq!(ladder::position(400_00), Some(1300));

    // The same through the gate: warn 10 counts from these three positions.
    let edges = [
        (1_99, [1_89, 2_18], [1_88, 2_20]),
        (2_00, [1_90, 2_20], [1_89, 2_22]),
        (400_00, [390_00, 420_00], [389_00, 422_00]),
    ];
    for (reference, pass, warn) in edges {
        let mut gate = Gate::new(1, 1);
        gate.session(PRE_OPEN)
            .ok(&prices(MAIN, [reference, 0, 0, 0]));
        for price in pass {
            assert_eq!(
                gate.would(buy(1, price, 100)),
                ACCEPT,
                "{reference} {price}"
            );
        }
        for price in warn {
            assert_eq!(
                gate.would(buy(1, price, 100)),
                WARN_10,
                "{reference} {price}"
            );
        }
    }
}

#[test]
fn q_at_10() {
    for session in [PRE_OPEN, PRE_CLOSE] {
        for side in [BUY, SELL] {
            let mut gate = Gate::new(1, 1);
            gate.session(session)
                .ok(&setup(1, 0, 0, 0))
                .ok(&prices(MAIN, [10_00, 0, 0, 0]));
            // By the front office, so that warn 10 stays out.
            let at = |price| Order {
                channel: FRONT,
                side,
                ..buy(1, price, 100)
            };
            assert_eq!(gate.would(at(15_00)), ACCEPT);
            assert_eq!(gate.would(at(15_10)), Q);
            assert_eq!(gate.would(at(5_00)), ACCEPT);
            assert_eq!(gate.would(at(4_98)), Q);
            assert_eq!(gate.order(at(15_10)), Q);
            assert_eq!(gate.counters(0), [0, 0, 1]);
        }
    }
}

#[test]
fn warn_30_at_10() {
    for channel in [FRONT, ONLINE, DMA] {
        let mut gate = Gate::new(1, 1);
        gate.session(OPEN)
            .ok(&setup(1, 0, 0, 0))
            .ok(&prices(MAIN, [0, 10_00, 0, 0]));
        let at = |number, price| Order {
            channel,
            ..buy(number, price, 100)
        };
        assert_eq!(gate.order(at(1, 13_00)), ACCEPT);
        assert_eq!(gate.order(at(2, 7_00)), ACCEPT);
        assert_eq!(gate.order(at(3, 13_10)), WARN_30);
        assert_eq!(gate.order(at(4, 6_95)), WARN_30);
        assert_eq!(gate.counters(0), [2, 2, 0]);
        assert_eq!(gate.numbers(0), [1, 2, 3, 4]);
    }
}

#[test]
fn warn_10_at_24_50() {
    for session in [PRE_OPEN, PRE_CLOSE] {
        for channel in [ONLINE, DMA] {
            let mut gate = Gate::new(1, 1);
            gate.session(session).ok(&prices(MAIN, [24_50, 0, 0, 0]));
            let at = |number, price| Order {
                channel,
                ..buy(number, price, 100)
            };
            assert_eq!(gate.order(at(1, 26_25)), ACCEPT);
            assert_eq!(gate.order(at(2, 23_50)), ACCEPT);
            assert_eq!(gate.order(at(3, 26_50)), WARN_10);
            assert_eq!(gate.order(at(4, 23_40)), WARN_10);
            assert_eq!(gate.counters(0), [2, 2, 0]);
        }
    }
}

#[test]
fn own_sell_at_50() {
    let mut gate = Gate::new(1, 1);
    gate.session(OPEN);
    assert_eq!(gate.order(sell(1, 50_00, 100)), ACCEPT);
    assert_eq!(gate.would(buy(2, 49_75, 100)), ACCEPT);
    assert_eq!(gate.would(buy(2, 50_00, 100)), W);
    assert_eq!(gate.would(buy(2, 50_25, 100)), W);
}

/// Customer 0 bought `volume` at 50.00 and cancelled it at 1,000 ms.
fn cancelled_at_50(volume: u32) -> Gate {
    let mut gate = Gate::new(2, 2);
    gate.session(OPEN).clock(1_000);
    assert_eq!(gate.order(buy(1, 50_00, volume)), ACCEPT);
    assert_eq!(gate.cancel(0, 1), OK);
    gate
}

#[test]
fn cancelled_100_000_at_50() {
    let mut gate = cancelled_at_50(100_000);
    gate.clock(61_000);
    assert_eq!(gate.would(buy(2, 50_00, 60_000)), P);
    assert_eq!(gate.would(buy(2, 50_00, 59_900)), ACCEPT);
    gate.clock(61_001);
    assert_eq!(gate.would(buy(2, 50_00, 60_000)), ACCEPT);
}

#[test]
fn cancelled_120_000_and_120_200() {
    assert_eq!(cancelled_at_50(120_000).order(buy(2, 50_00, 60_000)), P);
    assert_eq!(
        cancelled_at_50(120_200).order(buy(2, 50_00, 60_000)),
        ACCEPT
    );
}

#[test]
fn v_at_500_million() {
    let mut gate = Gate::new(1, 1);
    gate.session(OPEN);
    assert_eq!(gate.would(buy(1, 50_00, 10_000_000)), ACCEPT);
    assert_eq!(gate.would(buy(1, 50_00, 10_000_100)), V);
}

// ---- S ----

#[test]
fn sessions_take_their_types() {
    let table = [
        (CLOSED, [S, S, S, S]),
        (PRE_OPEN, [ACCEPT, ACCEPT, S, S]),
        (OPEN, [ACCEPT, S, S, ACCEPT]),
        (BREAK, [S, S, S, S]),
        (PRE_CLOSE, [ACCEPT, S, ACCEPT, S]),
    ];
    for (session, answers) in table {
        for channel in [FRONT, ONLINE, DMA] {
            for board in [MAIN, FOREIGN] {
                for side in [BUY, SELL] {
                    let mut gate = Gate::new(1, 1);
                    gate.session(session)
                        .ok(&prices(board, [0, 0, 49_75, 50_25]));
                    for order_type in [LIMIT, ATO, ATC, MP] {
                        let order = Order {
                            channel,
                            board,
                            price: if order_type == LIMIT { 50_00 } else { 0 },
                            ..priceless(order_type, side, 1)
                        };
                        let expected = answers[usize::from(order_type)];
                        assert_eq!(gate.would(order), expected, "{session} {order:?}");
                    }
                }
            }
        }
    }
}

#[test]
fn mp_needs_a_price_opposite_on_its_own_board() {
    let mut gate = Gate::new(1, 1);
    gate.session(OPEN)
        .ok(&prices(MAIN, [0, 50_00, 0, 50_25]))
        .ok(&prices(FOREIGN, [0, 50_00, 49_75, 0]));
    let mp = |side, board| Order {
        board,
        ..priceless(MP, side, 1)
    };
    assert_eq!(gate.would(mp(BUY, MAIN)), ACCEPT);
    assert_eq!(gate.would(mp(SELL, MAIN)), S);
    assert_eq!(gate.would(mp(BUY, FOREIGN)), S);
    assert_eq!(gate.would(mp(SELL, FOREIGN)), ACCEPT);
}

#[test]
fn mp_takes_a_row_and_counts() {
    let mut gate = Gate::new(1, 1);
    gate.session(OPEN).ok(&prices(MAIN, [0, 0, 49_75, 50_25]));
    assert_eq!(gate.order(priceless(MP, BUY, 1)), ACCEPT);
    assert_eq!(gate.order(priceless(MP, BUY, 2)), ACCEPT);
    assert_eq!(gate.counters(0), [2, 0, 0]);
    assert_eq!(gate.row(0, 0), [1, 1, 0, 0, 0, 3, 0, 100, 0]);
    assert_eq!(gate.row(0, 1), [1, 2, 0, 0, 0, 3, 0, 100, 0]);
}

// ---- V ----

#[test]
fn volumes_and_lots() {
    let mut gate = Gate::new(1, 1);
    gate.session(OPEN).ok(&prices(MAIN, [0, 0, 49_75, 50_25]));
    let mp = |volume| Order {
        volume,
        ..priceless(MP, BUY, 1)
    };
    for (volume, expected) in [
        (0, V),
        (1, V),
        (99, V),
        (100, ACCEPT),
        (150, V),
        (19_999_950, V),
        (20_000_000, ACCEPT),
        (20_000_001, V),
        (20_000_100, V),
        (u32::MAX, V),
    ] {
        assert_eq!(gate.would(mp(volume)), expected, "{volume}");
        assert_eq!(gate.would(buy(1, 1, volume)), expected, "{volume}");
    }
    for (lot, volume, expected) in [(50, 150, ACCEPT), (50, 149, V), (1, 149, ACCEPT), (1, 0, V)] {
        gate.ok(&encode::setup(&Setup {
            security: 0,
            lot,
            free: 0,
            first_day: 0,
            prior_close: 0,
            ipo: 0,
        }));
        assert_eq!(
            gate.would(buy(1, 50_00, volume)),
            expected,
            "{lot} {volume}"
        );
    }
}

#[test]
fn value_to_the_satang() {
    let mut gate = Gate::new(1, 1);
    gate.session(OPEN).ok(&encode::setup(&Setup {
        security: 0,
        lot: 1,
        free: 0,
        first_day: 0,
        prior_close: 0,
        ipo: 0,
    }));
    // The least that any legal price and volume make above 500 million baht.
    // It is over by half a baht.
    assert_eq!(gate.would(buy(1, 33_25, 15_037_594)), V);
    assert_eq!(gate.would(buy(1, 33_25, 15_037_593)), ACCEPT);
}

#[test]
fn value_counts_for_limits_only_and_does_not_wrap() {
    let mut gate = Gate::new(1, 1);
    gate.session(OPEN).ok(&prices(MAIN, [0, 0, 0, 10_000_000]));
    assert_eq!(gate.would(buy(1, 10_000_000, 20_000_000)), V);
    assert_eq!(gate.would(buy(1, 10_000_000, u32::MAX)), V);
    assert_eq!(gate.would(buy(1, 10_000_000, 5_000)), ACCEPT);
    assert_eq!(gate.would(buy(1, 10_000_000, 5_100)), V);
    let mp = Order {
        volume: 20_000_000,
        ..priceless(MP, BUY, 1)
    };
    assert_eq!(gate.would(mp), ACCEPT);
}

// ---- Q ----

/// A front-office order of 100 shares: Q sees it and warn 10 does not.
fn front(board: u8, price: u32) -> Order {
    Order {
        board,
        channel: FRONT,
        ..buy(1, price, 100)
    }
}

#[test]
fn q_takes_its_reference_in_order() {
    let q_at = |gate: &Gate, board, reference: u32| {
        let middle = ladder::position(reference).unwrap();
        let price = |position| ladder::price(position).unwrap();
        let mut edge = middle;
        while 2 * price(edge) <= 3 * reference {
            edge += 1;
        }
        assert_eq!(gate.would(front(board, price(edge - 1))), ACCEPT);
        assert_eq!(gate.would(front(board, price(edge))), Q);
        let mut edge = middle;
        while 2 * price(edge) >= reference {
            edge -= 1;
        }
        assert_eq!(gate.would(front(board, price(edge + 1))), ACCEPT);
        assert_eq!(gate.would(front(board, price(edge))), Q);
    };
    let free_of_q = |gate: &Gate, board| {
        assert_eq!(gate.would(front(board, 1)), ACCEPT);
        assert_eq!(gate.would(front(board, 10_000_000)), ACCEPT);
    };

    let mut gate = Gate::new(1, 1);
    gate.session(PRE_OPEN).ok(&setup(1, 1, 90_00, 10_00));
    q_at(&gate, MAIN, 10_00);
    q_at(&gate, FOREIGN, 10_00);

    gate.ok(&prices(MAIN, [0, 20_00, 0, 0]));
    q_at(&gate, MAIN, 20_00);
    q_at(&gate, FOREIGN, 20_00);

    gate.ok(&prices(FOREIGN, [0, 30_00, 0, 0]));
    q_at(&gate, MAIN, 20_00);
    q_at(&gate, FOREIGN, 30_00);

    // The main board's projected price is no reference for the foreign board.
    gate.ok(&prices(MAIN, [40_00, 20_00, 0, 0]));
    q_at(&gate, MAIN, 40_00);
    q_at(&gate, FOREIGN, 30_00);
    gate.ok(&prices(FOREIGN, [0, 0, 0, 0]));
    q_at(&gate, FOREIGN, 20_00);
    gate.ok(&prices(FOREIGN, [50_00, 30_00, 0, 0]));
    q_at(&gate, MAIN, 40_00);
    q_at(&gate, FOREIGN, 50_00);

    // The foreign board's sale is no reference for the main board.
    let mut gate = Gate::new(1, 1);
    gate.session(PRE_OPEN)
        .ok(&setup(1, 0, 90_00, 0))
        .ok(&prices(FOREIGN, [10_00, 20_00, 0, 0]));
    free_of_q(&gate, MAIN);

    // Prior close never; IPO only on the first day, and not if 0.
    for (first_day, ipo) in [(0, 0), (0, 10_00), (1, 0)] {
        let mut gate = Gate::new(1, 1);
        gate.session(PRE_CLOSE).ok(&setup(1, first_day, 90_00, ipo));
        free_of_q(&gate, MAIN);
        free_of_q(&gate, FOREIGN);
    }
}

#[test]
fn q_with_an_ipo_price_off_the_ladder() {
    let mut gate = Gate::new(1, 1);
    // 150% of 10.01 is 15.015, 50% is 5.005.
    gate.session(PRE_OPEN).ok(&setup(1, 1, 0, 10_01));
    assert_eq!(gate.would(front(MAIN, 15_00)), ACCEPT);
    assert_eq!(gate.would(front(MAIN, 15_10)), Q);
    assert_eq!(gate.would(front(MAIN, 5_05)), ACCEPT);
    assert_eq!(gate.would(front(MAIN, 5_00)), Q);
}

#[test]
fn q_only_free_and_only_while_orders_gather() {
    let mut gate = Gate::new(1, 1);
    gate.session(PRE_OPEN)
        .ok(&setup(0, 0, 0, 0))
        .ok(&prices(MAIN, [10_00, 0, 0, 0]));
    assert_eq!(gate.would(front(MAIN, 90_00)), ACCEPT);
    gate.ok(&setup(1, 0, 0, 0));
    for channel in [FRONT, ONLINE, DMA] {
        let order = Order {
            channel,
            ..front(MAIN, 90_00)
        };
        assert_eq!(gate.would(order), Q);
    }
    gate.session(OPEN).ok(&prices(MAIN, [10_00, 0, 0, 0]));
    assert_eq!(gate.would(front(MAIN, 90_00)), ACCEPT);
}

// ---- W ----

#[test]
fn w_between_limits_on_both_sides_and_in_every_session() {
    for session in [PRE_OPEN, OPEN, PRE_CLOSE] {
        let mut gate = Gate::new(2, 2);
        gate.session(session);
        // However entered: the rows come from the front office and from DMA.
        let row = Order {
            channel: FRONT,
            ..sell(1, 50_00, 100)
        };
        assert_eq!(gate.order(row), ACCEPT);
        let row = Order {
            channel: DMA,
            ..buy(2, 40_00, 100)
        };
        assert_eq!(gate.order(row), ACCEPT);

        assert_eq!(gate.would(buy(3, 49_75, 100)), ACCEPT);
        assert_eq!(gate.would(buy(3, 50_00, 100)), W);
        assert_eq!(gate.would(sell(3, 40_25, 100)), ACCEPT);
        assert_eq!(gate.would(sell(3, 40_00, 100)), W);
        assert_eq!(gate.would(sell(3, 39_75, 100)), W);
        // Own side, other board, other security, other customer, other channel.
        let crossing = buy(3, 50_00, 100);
        for passing in [
            sell(3, 50_00, 100),
            Order {
                board: FOREIGN,
                ..crossing
            },
            Order {
                security: 1,
                ..crossing
            },
            Order {
                customer: 1,
                ..crossing
            },
            Order {
                channel: FRONT,
                ..crossing
            },
            Order {
                channel: DMA,
                ..crossing
            },
        ] {
            assert_eq!(gate.would(passing), ACCEPT, "{passing:?}");
        }
        // A cancelled row is no open row.
        assert_eq!(gate.cancel(0, 1), OK);
        assert_eq!(gate.would(crossing), ACCEPT);
    }
}

#[test]
fn w_between_auction_orders_needs_no_projected_price() {
    for (session, order_type) in [(PRE_OPEN, ATO), (PRE_CLOSE, ATC)] {
        for (own, new) in [(BUY, SELL), (SELL, BUY)] {
            let mut gate = Gate::new(1, 1);
            gate.session(session);
            assert_eq!(gate.order(priceless(order_type, own, 1)), ACCEPT);
            assert_eq!(gate.would(priceless(order_type, new, 2)), W);
            assert_eq!(gate.would(priceless(order_type, own, 2)), ACCEPT);
        }
    }
}

#[test]
fn w_limit_against_auction_order_by_the_projected_price() {
    for (session, order_type) in [(PRE_OPEN, ATO), (PRE_CLOSE, ATC)] {
        for board in [MAIN, FOREIGN] {
            let on = |order| Order { board, ..order };
            let own_sell = on(priceless(order_type, SELL, 1));
            let own_buy = on(priceless(order_type, BUY, 1));

            let mut gate = Gate::new(1, 1);
            gate.session(session);
            assert_eq!(gate.order(own_sell), ACCEPT);
            assert_eq!(gate.would(on(buy(2, 50_00, 100))), ACCEPT);
            // A projected price on the other board does not count.
            gate.ok(&prices(1 - board, [50_00, 0, 0, 0]));
            assert_eq!(gate.would(on(buy(2, 50_00, 100))), ACCEPT);
            gate.ok(&prices(board, [50_00, 0, 0, 0]));
            assert_eq!(gate.would(on(buy(2, 49_75, 100))), ACCEPT);
            assert_eq!(gate.would(on(buy(2, 50_00, 100))), W);
            assert_eq!(gate.would(on(buy(2, 50_25, 100))), W);

            let mut gate = Gate::new(1, 1);
            gate.session(session).ok(&prices(board, [50_00, 0, 0, 0]));
            assert_eq!(gate.order(own_buy), ACCEPT);
            assert_eq!(gate.would(on(sell(2, 50_25, 100))), ACCEPT);
            assert_eq!(gate.would(on(sell(2, 50_00, 100))), W);
            assert_eq!(gate.would(on(sell(2, 49_75, 100))), W);
        }
    }
}

#[test]
fn w_auction_order_against_limit_by_the_projected_price() {
    for (session, order_type) in [(PRE_OPEN, ATO), (PRE_CLOSE, ATC)] {
        for (price, against_sell, against_buy) in
            [(49_75, W, ACCEPT), (50_00, W, W), (50_25, ACCEPT, W)]
        {
            let mut gate = Gate::new(1, 1);
            gate.session(session).ok(&prices(MAIN, [50_00, 0, 0, 0]));
            assert_eq!(gate.order(sell(1, price, 100)), ACCEPT);
            assert_eq!(gate.would(priceless(order_type, BUY, 2)), against_sell);
            gate.ok(&prices(MAIN, [0, 50_00, 0, 0]));
            assert_eq!(gate.would(priceless(order_type, BUY, 2)), ACCEPT);

            let mut gate = Gate::new(1, 1);
            gate.session(session).ok(&prices(MAIN, [50_00, 0, 0, 0]));
            assert_eq!(gate.order(buy(1, price, 100)), ACCEPT);
            assert_eq!(gate.would(priceless(order_type, SELL, 2)), against_buy);
        }
    }
}

#[test]
fn w_market_price_against_the_best_price() {
    let mut gate = Gate::new(1, 1);
    gate.session(OPEN)
        .ok(&prices(MAIN, [0, 0, 49_75, 50_25]))
        .ok(&prices(FOREIGN, [0, 0, 49_00, 51_00]));
    assert_eq!(gate.order(sell(1, 50_25, 100)), ACCEPT);
    assert_eq!(gate.order(buy(2, 49_75, 100)), ACCEPT);
    let foreign = |order| Order {
        board: FOREIGN,
        ..order
    };
    assert_eq!(gate.would(priceless(MP, BUY, 3)), W);
    assert_eq!(gate.would(priceless(MP, SELL, 3)), W);
    assert_eq!(gate.would(foreign(priceless(MP, BUY, 3))), ACCEPT);
    let by_dma = Order {
        channel: DMA,
        ..priceless(MP, BUY, 3)
    };
    assert_eq!(gate.would(by_dma), ACCEPT);
    // Equal, not "at or above".
    gate.ok(&prices(MAIN, [0, 0, 50_00, 50_50]));
    assert_eq!(gate.would(priceless(MP, BUY, 3)), ACCEPT);
    assert_eq!(gate.would(priceless(MP, SELL, 3)), ACCEPT);
    gate.ok(&prices(MAIN, [0, 0, 49_50, 50_00]));
    assert_eq!(gate.would(priceless(MP, BUY, 3)), ACCEPT);
    assert_eq!(gate.would(priceless(MP, SELL, 3)), ACCEPT);
}

/// No history leaves an ATO or ATC row standing outside its session, but the
/// words are sound, and the rule says what holds.
#[test]
fn w_over_sound_words_that_no_history_leaves() {
    let mut gate = Gate::new(1, 1);
    gate.session(PRE_OPEN);
    assert_eq!(gate.order(priceless(ATO, SELL, 1)), ACCEPT);
    gate.ok(&prices(MAIN, [50_00, 0, 0, 50_25]));
    assert_eq!(gate.would(buy(2, 50_00, 100)), W);
    // With a projected price, but not in sessions 1 and 4.
    gate.words[3] = u32::from(OPEN);
    assert_eq!(gate.would(buy(2, 50_00, 100)), ACCEPT);
    assert_eq!(gate.would(priceless(MP, BUY, 2)), ACCEPT);
    // ATC against ATO.
    gate.words[3] = u32::from(PRE_CLOSE);
    assert_eq!(gate.would(buy(2, 50_00, 100)), W);
    assert_eq!(gate.would(priceless(ATC, BUY, 2)), W);
    assert_eq!(gate.would(priceless(ATC, SELL, 2)), ACCEPT);
}

// ---- P ----

#[test]
fn p_needs_the_same_order() {
    let gate = cancelled_at_50(100_000);
    let again = buy(2, 50_00, 60_000);
    assert_eq!(gate.would(again), P);
    for passing in [
        sell(2, 50_00, 60_000),
        buy(2, 50_25, 60_000),
        buy(2, 49_75, 60_400),
        Order {
            customer: 1,
            ..again
        },
        Order {
            security: 1,
            ..again
        },
        Order {
            board: FOREIGN,
            ..again
        },
        Order {
            channel: FRONT,
            ..again
        },
        Order {
            channel: DMA,
            ..again
        },
    ] {
        assert_eq!(gate.would(passing), ACCEPT, "{passing:?}");
    }
    for session in [PRE_OPEN, PRE_CLOSE] {
        let mut gate = gate.clone();
        gate.session(session);
        assert_eq!(gate.would(again), ACCEPT);
        gate.session(OPEN);
        assert_eq!(gate.would(again), P);
    }
}

#[test]
fn p_looks_at_cancelled_rows_and_at_what_was_left_of_them() {
    let mut gate = Gate::new(1, 1);
    gate.session(OPEN);
    assert_eq!(gate.order(buy(1, 50_00, 200_000)), ACCEPT);
    assert_eq!(gate.would(buy(2, 50_00, 60_000)), ACCEPT);
    assert_eq!(gate.match_report(0, 1, 79_900), OK);
    let mut early = gate.clone();
    assert_eq!(early.cancel(0, 1), OK);
    assert_eq!(early.order(buy(2, 50_00, 60_000)), ACCEPT);
    assert_eq!(gate.match_report(0, 1, 100), OK);
    assert_eq!(gate.cancel(0, 1), OK);
    assert_eq!(gate.order(buy(2, 50_00, 60_000)), P);
}

#[test]
fn a_full_desk_of_cancels_forgets_none_inside_its_minute() {
    let mut gate = Gate::new(1, 1);
    gate.session(OPEN);
    for number in 1..=32 {
        assert_eq!(gate.order(buy(number, 50_00 + 25 * number, 60_000)), ACCEPT);
    }
    for number in 1..=32 {
        assert_eq!(gate.cancel(0, number), OK);
    }
    gate.clock(60_000);
    for number in 1..=32 {
        let again = buy(100 + number, 50_00 + 25 * number, 60_000);
        assert_eq!(gate.would(again), P);
    }
    assert_eq!(gate.would(buy(99, 40_00, 100)), refused(12));
    gate.clock(60_001);
    assert_eq!(gate.order(buy(99, 50_25, 60_000)), ACCEPT);
    assert_eq!(gate.numbers(0), [99]);
}

// ---- warn 30 and warn 10 ----

#[test]
fn warn_30_falls_back_to_the_main_board_only() {
    let mut gate = Gate::new(1, 1);
    gate.session(OPEN).ok(&setup(1, 1, 10_00, 10_00));
    let at = |board, price| Order {
        board,
        ..buy(1, price, 100)
    };
    // Neither IPO nor prior close nor a projected price is a last sale.
    gate.ok(&prices(MAIN, [10_00, 0, 10_00, 10_00]));
    assert_eq!(gate.would(at(MAIN, 90_00)), ACCEPT);
    assert_eq!(gate.would(at(FOREIGN, 90_00)), ACCEPT);
    gate.ok(&prices(FOREIGN, [0, 10_00, 0, 0]));
    assert_eq!(gate.would(at(MAIN, 90_00)), ACCEPT);
    assert_eq!(gate.would(at(FOREIGN, 13_00)), ACCEPT);
    assert_eq!(gate.would(at(FOREIGN, 13_10)), WARN_30);
    gate.ok(&prices(MAIN, [0, 20_00, 0, 0]));
    assert_eq!(gate.would(at(FOREIGN, 13_00)), ACCEPT);
    gate.ok(&prices(FOREIGN, [0, 0, 0, 0]));
    assert_eq!(gate.would(at(FOREIGN, 13_90)), WARN_30);
    assert_eq!(gate.would(at(FOREIGN, 14_00)), ACCEPT);
    assert_eq!(gate.would(at(FOREIGN, 26_00)), ACCEPT);
    assert_eq!(gate.would(at(FOREIGN, 26_25)), WARN_30);
    // Not free.
    gate.ok(&setup(0, 0, 0, 0));
    assert_eq!(gate.would(at(MAIN, 90_00)), ACCEPT);
}

#[test]
fn warn_10_takes_its_reference_in_order() {
    let warn_at = |gate: &Gate, reference| {
        let middle = ladder::position(reference).unwrap();
        for (offset, expected) in [(-11, WARN_10), (-10, ACCEPT), (10, ACCEPT), (11, WARN_10)] {
            let price = ladder::price(middle.checked_add_signed(offset).unwrap()).unwrap();
            assert_eq!(gate.would(buy(1, price, 100)), expected);
        }
    };
    let mut gate = Gate::new(1, 1);
    gate.session(PRE_OPEN);
    assert_eq!(gate.would(buy(1, 10_000_000, 100)), ACCEPT);
    // An IPO price is no reference here, nor are the foreign board's prices.
    gate.ok(&setup(0, 1, 0, 10_00))
        .ok(&prices(FOREIGN, [5_00, 6_00, 7_00, 8_00]));
    assert_eq!(gate.would(buy(1, 10_000_000, 100)), ACCEPT);
    gate.ok(&setup(0, 0, 24_50, 0));
    warn_at(&gate, 24_50);
    // All of these prices are inside the range of 24.50.
    gate.ok(&prices(MAIN, [0, 20_00, 0, 0]));
    warn_at(&gate, 20_00);
    gate.ok(&prices(MAIN, [28_00, 20_00, 0, 0]));
    warn_at(&gate, 28_00);
    for passing in [
        Order {
            channel: FRONT,
            ..buy(1, 24_00, 100)
        },
        Order {
            board: FOREIGN,
            ..buy(1, 50_00, 100)
        },
    ] {
        assert_eq!(gate.would(passing), ACCEPT);
    }
    // A change of session makes the projected price absent.
    gate.session(PRE_CLOSE);
    warn_at(&gate, 20_00);
    gate.session(OPEN);
    assert_eq!(gate.would(buy(1, 24_00, 100)), ACCEPT);
}

// ---- Rows, counters, market events ----

#[test]
fn the_first_verdict_that_applies() {
    // Q before W before warn 10.
    let mut gate = Gate::new(1, 1);
    gate.session(PRE_OPEN)
        .ok(&setup(1, 0, 0, 0))
        .ok(&prices(MAIN, [10_00, 0, 0, 0]));
    assert_eq!(gate.order(sell(1, 10_00, 100)), ACCEPT);
    assert_eq!(gate.would(buy(2, 15_10, 100)), Q);
    assert_eq!(gate.would(buy(2, 15_00, 100)), W);
    assert_eq!(gate.would(buy(2, 15_10, 150)), V);
    let free_of_w = Order {
        channel: DMA,
        ..buy(2, 15_00, 100)
    };
    assert_eq!(gate.would(free_of_w), WARN_10);
    gate.session(BREAK);
    assert_eq!(gate.would(buy(2, 15_10, 150)), S);

    // P before warn 30, W before P.
    let mut gate = cancelled_at_50(60_000);
    gate.ok(&setup(1, 0, 0, 0))
        .ok(&prices(MAIN, [0, 10_00, 0, 0]));
    assert_eq!(gate.would(buy(2, 50_00, 60_000)), P);
    assert_eq!(gate.would(buy(2, 50_00, 59_900)), WARN_30);
    assert_eq!(gate.order(sell(3, 50_00, 100)), WARN_30);
    assert_eq!(gate.would(buy(2, 50_00, 60_000)), W);
}

#[test]
fn rows_hold_the_order_and_stand_in_order_of_acceptance() {
    let mut gate = Gate::new(3, 2);
    gate.session(PRE_OPEN).clock(7);
    let order = Order {
        customer: 1,
        security: 1,
        board: FOREIGN,
        channel: DMA,
        ..sell(u32::MAX, 50_00, 300)
    };
    assert_eq!(gate.order(order), ACCEPT);
    let ato = Order {
        customer: 1,
        ..priceless(ATO, BUY, 5)
    };
    assert_eq!(gate.order(ato), ACCEPT);
    assert_eq!(gate.row(1, 0), [1, u32::MAX, 1, 1, 1, 0, 50_00, 300, 0]);
    assert_eq!(gate.row(1, 1), [1, 5, 0, 0, 0, 1, 0, 100, 0]);
    assert_eq!(gate.counters(1), [2, 0, 0]);

    assert_eq!(gate.match_report(1, u32::MAX, 100), OK);
    assert_eq!(gate.row(1, 0)[7], 200);
    assert_eq!(gate.cancel(1, u32::MAX), OK);
    assert_eq!(gate.row(1, 0), [2, u32::MAX, 1, 1, 1, 0, 50_00, 200, 7]);

    // An ATO row goes by cancel, by match and by another session, not by the same.
    let mut by_cancel = gate.clone();
    assert_eq!(by_cancel.cancel(1, 5), OK);
    assert_eq!(by_cancel.numbers(1), [u32::MAX]);
    assert_eq!(by_cancel.row(1, 1), [0; 9]);
    let mut by_match = gate.clone();
    assert_eq!(by_match.match_report(1, 5, 100), OK);
    assert_eq!(by_match.words, by_cancel.words);
    let before = gate.words.clone();
    gate.session(PRE_OPEN);
    assert_eq!(gate.words, before);
    gate.session(BREAK);
    assert_eq!(gate.numbers(1), [u32::MAX]);
}

#[test]
fn rows_close_up() {
    let mut gate = Gate::new(1, 1);
    gate.session(PRE_CLOSE);
    for number in 1..=5 {
        assert_eq!(gate.order(buy(number, 50_00, 100 * number)), ACCEPT);
        assert_eq!(gate.order(priceless(ATC, BUY, 10 + number)), ACCEPT);
    }
    assert_eq!(gate.match_report(0, 2, 200), OK);
    assert_eq!(gate.numbers(0), [1, 11, 12, 3, 13, 4, 14, 5, 15]);
    assert_eq!(gate.cancel(0, 12), OK);
    assert_eq!(gate.cancel(0, 3), OK);
    assert_eq!(gate.numbers(0), [1, 11, 3, 13, 4, 14, 5, 15]);
    gate.session(CLOSED);
    assert_eq!(gate.numbers(0), [1, 3, 4, 5]);
    for row in 4..32 {
        assert_eq!(gate.row(0, row), [0; 9]);
    }
}

#[test]
fn only_an_order_that_gets_a_row_removes_old_cancels() {
    let mut gate = cancelled_at_50(100);
    gate.ok(&prices(MAIN, [0, 0, 0, 50_25]));
    gate.clock(61_001);
    assert_eq!(gate.order(buy(2, 50_00, 150)), V);
    assert_eq!(gate.order(priceless(MP, SELL, 3)), S);
    assert_eq!(gate.numbers(0), [1]);
    // Its number is free again, also for an order that leaves the row standing.
    assert_eq!(gate.order(priceless(MP, SELL, 1)), S);
    assert_eq!(gate.numbers(0), [1]);
    assert_eq!(gate.order(buy(1, 50_00, 200)), ACCEPT);
    assert_eq!(gate.row(0, 0), [1, 1, 0, 0, 0, 0, 50_00, 200, 0]);
    assert_eq!(gate.numbers(0), [1]);

    let mut gate = cancelled_at_50(100);
    gate.clock(61_000);
    assert_eq!(gate.order(buy(2, 50_00, 100)), ACCEPT);
    assert_eq!(gate.numbers(0), [1, 2]);
}

#[test]
fn counters_stay_at_their_end() {
    let mut gate = Gate::new(1, 1);
    gate.session(OPEN)
        .ok(&setup(1, 0, 0, 0))
        .ok(&prices(MAIN, [0, 10_00, 0, 0]));
    let start = gate.desk_start(0);
    gate.words[start..start + 3].fill(u32::MAX - 1);
    for round in 0..2 {
        assert_eq!(gate.order(buy(10 * round + 1, 10_00, 100)), ACCEPT);
        assert_eq!(gate.order(buy(10 * round + 2, 20_00, 100)), WARN_30);
        assert_eq!(gate.order(buy(10 * round + 3, 10_00, 1)), V);
        assert_eq!(gate.counters(0), [u32::MAX; 3]);
    }
}

#[test]
fn market_events_set_their_words() {
    let mut gate = Gate::new(2, 2);
    gate.clock(86_399_999).clock(86_399_999);
    gate.ok(&encode::setup(&Setup {
        security: 1,
        lot: 50,
        free: 1,
        first_day: 1,
        prior_close: 9_00,
        ipo: 9_999_999,
    }));
    let mut foreign = prices(FOREIGN, [1_00, 2_00, 3_00, 4_00]);
    foreign[1] = 1;
    gate.ok(&foreign);
    let mut main = prices(MAIN, [5_00, 6_00, 7_00, 8_00]);
    main[1] = 1;
    gate.ok(&main);
    let mut right = figures(8_99, 20_00, 65_535, 1);
    right[1] = 1;
    gate.ok(&right);
    assert_eq!(gate.words[..4], [2, 2, 86_399_999, 0]);
    assert_eq!(
        gate.security(0),
        [100, 0, 0, 0, 0, 0, 0, 0, 0, 0, 0, 0, 0, 0, 0, 0, 0]
    );
    assert_eq!(
        gate.security(1),
        [
            50, 1, 1, 9_00, 9_999_999, 5_00, 6_00, 7_00, 8_00, 1_00, 2_00, 3_00, 4_00, 8_99, 20_00,
            65_535, 1
        ]
    );
    gate.session(PRE_OPEN);
    assert_eq!(gate.words[..4], [2, 2, 86_399_999, 1]);
    assert_eq!(
        gate.security(1),
        [
            50, 1, 1, 9_00, 9_999_999, 0, 6_00, 7_00, 8_00, 0, 2_00, 3_00, 4_00, 8_99, 20_00,
            65_535, 1
        ]
    );
}
