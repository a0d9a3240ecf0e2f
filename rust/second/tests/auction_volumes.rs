//! Request 6 of paper 02: the auction's price with one scratch list, off which
//! the volumes are read.

mod common;

use std::cmp::Reverse;

use common::Random;
use common::books::{ATO, DOCUMENT_002, DOCUMENT_003, UNTOUCHED, buy, sell};
use second::auction::{Answer, Order, SCRATCH_PLACES, Sums, auction, auction_volumes};

/// The answer, and what a scratch list of so many places holds afterwards.
fn lend(places: usize, orders: &[Order], reference: u32) -> (Answer, Vec<u64>) {
    let mut volumes = vec![UNTOUCHED; places];
    let answer = auction_volumes(orders, reference, &mut volumes);
    (answer, volumes)
}

/// Not refused: the scratch list holds these volumes, a place for each order, and
/// 0 behind them to its end.
fn holds(orders: &[Order], reference: u32, expected: Answer, volumes: &[u64]) {
    assert_eq!(orders.len(), volumes.len());
    for places in [1_024, 1_025, 3_000] {
        let (answer, held) = lend(places, orders, reference);
        assert_eq!(answer, expected, "{orders:?}");
        let (at_orders, behind) = held.split_at(orders.len());
        assert_eq!(at_orders, volumes, "{orders:?}");
        assert_eq!(behind, vec![0; places - orders.len()]);
    }
}

/// The same, also with the list of orders turned round.
fn holds_in_both_orders(orders: &[Order], reference: u32, expected: Answer, volumes: &[u64]) {
    holds(orders, reference, expected, volumes);
    let orders: Vec<Order> = orders.iter().copied().rev().collect();
    let volumes: Vec<u64> = volumes.iter().copied().rev().collect();
    holds(&orders, reference, expected, &volumes);
}

/// Refused, with the scratch list left equal.
fn refuses(orders: &[Order], places: usize, number: u8) {
    let (answer, held) = lend(places, orders, 0);
    assert_eq!(answer, Answer::Refused(number));
    assert_eq!(held, vec![UNTOUCHED; places]);
}

fn price(price: u32, volume: u64) -> Answer {
    Answer::Price { price, volume }
}

const REFERENCES: [u32; 7] = [0, 48_00, 49_00, 101_00, 102_00, 106_00, u32::MAX];

#[test]
fn document_002() {
    let volumes = [
        0, 3_300, 3_300, 3_500, 3_500, 0, 0, 3_500, 3_500, 3_300, 1_000, 1_000, 1_000,
    ];
    for reference in REFERENCES {
        let expected = price(102_00, 3_500);
        holds_in_both_orders(DOCUMENT_002.orders, reference, expected, &volumes);
    }
}

#[test]
fn document_003() {
    for reference in REFERENCES {
        let expected = price(49_00, 900);
        let volumes = [900, 600, 900, 0, 0];
        holds_in_both_orders(DOCUMENT_003.orders, reference, expected, &volumes);
    }
}

#[test]
fn volumes_of_the_documents_tables() {
    for book in [DOCUMENT_002, DOCUMENT_003] {
        let (_, held) = lend(SCRATCH_PLACES, book.orders, 0);
        for (order, volume) in book.orders.iter().zip(held) {
            let line = book.table.iter().find(|line| line.0 == order.price);
            let printed = line.map_or(0, |line| line.3);
            assert_eq!(volume, printed, "{order:?}");
        }
    }
}

/// They count in every volume, and hold none.
#[test]
fn ato_and_atc_hold_0() {
    let orders = [
        buy(ATO, 500),
        sell(10_00, 300),
        sell(ATO, 100),
        buy(ATO, 200),
        buy(10_10, 50),
        sell(ATO, 400),
    ];
    let expected = price(10_10, 750);
    holds_in_both_orders(&orders, 11_00, expected, &[0, 750, 0, 0, 750, 0]);
    let orders = [buy(ATO, 100), sell(ATO, 100)];
    holds_in_both_orders(&orders, 10_00, Answer::None, &[0, 0]);
    // In the last of 1,024 places.
    let mut orders = vec![buy(10_00, 1); 1_023];
    orders.push(sell(ATO, 20_000_000));
    let mut volumes = vec![1_023; 1_023];
    volumes.push(0);
    holds_in_both_orders(&orders, 0, price(10_00, 1_023), &volumes);
}

#[test]
fn places_behind_the_orders_hold_0() {
    let orders = [buy(10_00, 100), sell(10_00, 60)];
    for places in [1_024, 1_025, 2_048, 100_000] {
        for (orders, expected) in [
            (&orders[..], price(10_00, 60)),
            (&orders[..1], Answer::None),
            (&[], Answer::None),
        ] {
            let (answer, held) = lend(places, orders, 0);
            assert_eq!(answer, expected);
            assert_eq!(held.last(), Some(&0), "{places} places");
            assert!(held[orders.len()..].iter().all(|&volume| volume == 0));
        }
    }
}

/// What one call left does not stay behind the shorter list of the next one.
#[test]
fn the_list_is_lent_again() {
    let mut volumes = vec![UNTOUCHED; 1_030];
    let full = [[buy(10_00, 2); 512], [sell(10_00, 3); 512]].concat();
    let answer = auction_volumes(&full, 0, &mut volumes);
    assert_eq!(answer, price(10_00, 1_024));
    assert_eq!(volumes, [vec![1_024; 1_024], vec![0; 6]].concat());
    let held = volumes.clone();
    let answer = auction_volumes(&[buy(10_01, 1)], 0, &mut volumes);
    assert_eq!(answer, Answer::Refused(15));
    assert_eq!(volumes, held);
    let answer = auction_volumes(&[buy(10_00, 1), sell(ATO, 1)], 0, &mut volumes);
    assert_eq!(answer, price(10_00, 1));
    assert_eq!(volumes, [vec![1], vec![0; 1_029]].concat());
}

#[test]
fn two_orders_of_one_price() {
    let orders = [buy(10_00, 100), sell(10_00, 130), buy(10_00, 50)];
    holds_in_both_orders(&orders, 0, price(10_00, 130), &[130; 3]);
    let orders = [sell(10_00, 60), buy(10_10, 100), sell(10_00, 30)];
    holds_in_both_orders(&orders, 10_10, price(10_10, 90), &[90; 3]);
    holds_in_both_orders(&orders, 10_00, price(10_00, 90), &[90; 3]);
}

/// "The price, the volume, "none"" by each of request 5's four comparisons.
#[test]
fn the_price_given_before() {
    // The most volume, whatever lies nearer.
    let orders = [buy(11_00, 200), sell(10_00, 100), sell(11_00, 150)];
    holds_in_both_orders(&orders, 10_00, price(11_00, 200), &[200, 100, 200]);
    let orders = [sell(10_00, 200), buy(11_00, 100), buy(10_00, 150)];
    holds_in_both_orders(&orders, 11_00, price(10_00, 200), &[200, 100, 200]);
    // Then the least difference.
    let orders = [buy(11_00, 100), buy(10_00, 50), sell(10_00, 100)];
    holds_in_both_orders(&orders, 10_00, price(11_00, 100), &[100; 3]);
    let orders = [sell(10_00, 100), sell(11_00, 50), buy(11_00, 100)];
    holds_in_both_orders(&orders, 11_00, price(10_00, 100), &[100; 3]);
    // Then the least distance, then the higher.
    let orders = [buy(11_00, 100), sell(10_00, 100)];
    for (reference, given) in [
        (0, 10_00),
        (10_49, 10_00),
        (10_50, 11_00),
        (10_51, 11_00),
        (u32::MAX, 11_00),
    ] {
        holds_in_both_orders(&orders, reference, price(given, 100), &[100; 2]);
    }
    // None.
    let orders = [buy(10_00, 100), sell(10_10, 100)];
    holds_in_both_orders(&orders, 10_00, Answer::None, &[0; 2]);
}

#[test]
fn sums_do_not_wrap() {
    let orders = [
        [buy(50_00, 20_000_000); 512],
        [sell(50_00, 20_000_000); 512],
    ]
    .concat();
    let volume = 10_240_000_000;
    holds(&orders, 0, price(50_00, volume), &[volume; 1_024]);
}

#[test]
fn refused_14() {
    let orders = [buy(50_00, 100), sell(50_00, 100)];
    let bad = [buy(50_00, 100), buy(50_01, 100)];
    for places in [0, 1, 2, 1_022, 1_023] {
        refuses(&orders, places, 14);
        refuses(&[], places, 14);
        // It is found before 15.
        refuses(&bad, places, 14);
    }
    for places in [1_024, 1_025] {
        assert_eq!(lend(places, &orders, 0).0, price(50_00, 100));
        assert_eq!(lend(places, &[], 0).0, Answer::None);
        refuses(&bad, places, 15);
    }
}

#[test]
fn refused_14_for_1_025_orders() {
    let mut orders = vec![sell(50_00, 1); 1_024];
    orders[0] = buy(50_00, 2_000);
    holds(&orders, 0, price(50_00, 1_023), &[1_023; 1_024]);
    orders.push(sell(50_00, 1));
    for places in [1_023, 1_024, 1_025, 3_000] {
        refuses(&orders, places, 14);
    }
    // It is found before 15.
    for place in [0, 1_023, 1_024] {
        let mut orders = orders.clone();
        orders[place].volume = 0;
        refuses(&orders, 1_025, 14);
    }
}

#[test]
fn refused_15() {
    let order = |side, price, volume| Order {
        side,
        price,
        volume,
    };
    for bad in [
        order(2, 50_00, 100),
        order(u32::MAX, 50_00, 100),
        order(1, 50_01, 100),
        order(1, u32::MAX, 100),
        order(1, 50_00, 0),
        order(1, ATO, 20_000_001),
    ] {
        for count in [1, 2, 3, 1_024] {
            let mut orders = vec![buy(50_00, 100); count];
            orders[0] = sell(50_00, 20_000_000);
            for place in [0, count / 2, count - 1] {
                let mut orders = orders.clone();
                orders[place] = bad;
                for places in [1_024, 1_025] {
                    refuses(&orders, places, 15);
                }
            }
        }
    }
}

/// Few prices and few volumes, so that candidates are often alike.
fn any_order(random: &mut Random) -> Order {
    let prices = [ATO, 9_90, 9_95, 10_00, 10_10, 10_20, 10_30, 10_40];
    Order {
        side: random.below(2),
        price: random.pick(&prices),
        volume: random.pick(&[100, 100, 100, 200, 300, 20_000_000]),
    }
}

/// By the definition: "the most volume; then the least difference of the sums;
/// then the least distance to the reference; then it is the higher".
fn by_the_definition(orders: &[Order], reference: u32) -> Answer {
    let candidates = orders.iter().filter(|order| order.price != ATO);
    let keys = candidates.map(|&Order { price, .. }| {
        let sums = Sums::at(price, orders);
        let distance = price.abs_diff(reference);
        let least = Reverse((sums.difference(), distance));
        (sums.volume(), least, price)
    });
    match keys.max() {
        Some((volume @ 1.., _, given)) => price(given, volume),
        _ => Answer::None,
    }
}

/// "must be the ones given before": by request 5's function, whose two sums at a
/// place give the volume there.
#[test]
fn as_request_5() {
    let mut random = Random::new(6);
    let [mut prices, mut nones, mut refusals] = [0; 3];
    for _ in 0..600 {
        let most = random.pick(&[3, 6, 30, 1_025]);
        let count = random.below(most) as usize;
        let mut orders: Vec<Order> = (0..count).map(|_| any_order(&mut random)).collect();
        if count > 0 && random.once_in(6) {
            let place = random.below(count as u32) as usize;
            orders[place].price = 10_01;
        }
        let reference = random.pick(&[0, 9_95, 9_97, 10_05, 10_15, 10_30, u32::MAX]);
        let places = random.pick(&[1_023, 1_024, 1_024, 1_024, 1_500, 1_500]);

        let mut buyers = vec![UNTOUCHED; places];
        let mut sellers = buyers.clone();
        let before = auction(&orders, reference, &mut buyers, &mut sellers);
        let (answer, held) = lend(places, &orders, reference);
        assert_eq!(answer, before, "{orders:?}");
        match answer {
            Answer::Price { .. } => prices += 1,
            Answer::None => nones += 1,
            Answer::Refused(_) => {
                refusals += 1;
                assert_eq!(held, vec![UNTOUCHED; places]);
                continue;
            }
        }
        assert_eq!(answer, by_the_definition(&orders, reference), "{orders:?}");
        for (place, volume) in held.into_iter().enumerate() {
            let expected = match orders.get(place) {
                Some(order) if order.price != ATO => buyers[place].min(sellers[place]),
                _ => 0,
            };
            assert_eq!(volume, expected, "place {place} of {orders:?}");
        }
    }
    assert!(prices > 100 && nones > 50 && refusals > 50);
}
