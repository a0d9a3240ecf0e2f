//! Request 5 of paper 02: the price an auction would give.

mod common;

use common::books::{ATO, Book, DOCUMENT_002, DOCUMENT_003, UNTOUCHED, buy, sell};
use second::auction::{Answer, Order, SCRATCH_PLACES, Sums, auction};
use second::ladder::LAST_PRICE;

/// The answer, after the scratch lists were seen to hold what they should.
fn answer(orders: &[Order], reference: u32) -> Answer {
    let mut buyers = vec![UNTOUCHED; SCRATCH_PLACES];
    let mut sellers = buyers.clone();
    let answer = auction(orders, reference, &mut buyers, &mut sellers);
    for (place, (buyers, sellers)) in buyers.into_iter().zip(sellers).enumerate() {
        let expected = match orders.get(place) {
            _ if matches!(answer, Answer::Refused(_)) => [UNTOUCHED; 2],
            None => [UNTOUCHED; 2],
            Some(Order { price: ATO, .. }) => [0; 2],
            Some(order) => {
                let sums = Sums::at(order.price, orders);
                [sums.buyers, sums.sellers]
            }
        };
        assert_eq!([buyers, sellers], expected, "place {place}");
    }
    answer
}

fn price(price: u32, volume: u64) -> Answer {
    Answer::Price { price, volume }
}

/// The answer whatever the order of the list, with this reference.
fn in_both_orders(orders: &[Order], reference: u32, expected: Answer) {
    let reversed: Vec<Order> = orders.iter().copied().rev().collect();
    assert_eq!(answer(orders, reference), expected, "{orders:?}");
    assert_eq!(answer(&reversed, reference), expected, "{reversed:?}");
}

/// The price of a document's book, whatever the reference, by its printed table.
fn document(book: &Book) {
    for &(price, buyers, sellers, volume) in book.table {
        let sums = Sums::at(price, book.orders);
        assert_eq!(sums, Sums { buyers, sellers }, "{price}");
        assert_eq!(sums.volume(), volume, "{price}");
    }
    for reference in [0, 48_00, 49_00, 101_00, 102_00, 106_00, u32::MAX] {
        in_both_orders(book.orders, reference, price(book.price, book.volume));
    }
}

#[test]
fn document_002() {
    document(&DOCUMENT_002);
}

#[test]
fn document_003() {
    document(&DOCUMENT_003);
}

#[test]
fn the_most_volume() {
    // 100 shares at 10.00 and 200 at 11.00, whatever lies nearer.
    let orders = [buy(11_00, 200), sell(10_00, 100), sell(11_00, 150)];
    in_both_orders(&orders, 10_00, price(11_00, 200));
    let orders = [sell(10_00, 200), buy(11_00, 100), buy(10_00, 150)];
    in_both_orders(&orders, 11_00, price(10_00, 200));
}

#[test]
fn then_the_least_difference() {
    // 100 shares at both prices; one of them leaves no rest.
    let orders = [buy(11_00, 100), buy(10_00, 50), sell(10_00, 100)];
    in_both_orders(&orders, 10_00, price(11_00, 100));
    let orders = [sell(10_00, 100), sell(11_00, 50), buy(11_00, 100)];
    in_both_orders(&orders, 11_00, price(10_00, 100));
}

#[test]
fn then_the_least_distance_to_the_reference() {
    let orders = [buy(11_00, 100), sell(10_00, 100)];
    in_both_orders(&orders, 0, price(10_00, 100));
    in_both_orders(&orders, 10_00, price(10_00, 100));
    in_both_orders(&orders, 10_49, price(10_00, 100));
    in_both_orders(&orders, 10_51, price(11_00, 100));
    in_both_orders(&orders, u32::MAX, price(11_00, 100));
}

#[test]
fn then_the_higher() {
    let orders = [buy(11_00, 100), sell(10_00, 100)];
    in_both_orders(&orders, 10_50, price(11_00, 100));
}

#[test]
fn none() {
    for orders in [
        &[][..],
        &[buy(ATO, 100), sell(ATO, 100)],
        &[buy(10_00, 100), buy(ATO, 100)],
        &[sell(10_00, 100), sell(ATO, 100)],
        &[buy(10_00, 100), sell(10_10, 100)],
    ] {
        in_both_orders(orders, 10_00, Answer::None);
    }
    in_both_orders(&[buy(10_00, 100), sell(ATO, 1)], u32::MAX, price(10_00, 1));
}

#[test]
fn sums_do_not_wrap() {
    let mut orders = vec![buy(50_00, 20_000_000); 512];
    orders.extend([sell(50_00, 20_000_000); 512]);
    assert_eq!(answer(&orders, 0), price(50_00, 10_240_000_000));
}

#[test]
fn refused_14() {
    let full = vec![buy(50_00, 100); 1_024];
    let long = vec![buy(50_00, 100); 1_025];
    assert_eq!(answer(&full, 0), Answer::None);
    assert_eq!(answer(&long, 0), Answer::Refused(14));
    // It is found before 15.
    let bad = [buy(50_01, 100)];
    for (buyers, sellers, expected) in [
        (1_024, 1_024, 15),
        (2_000, 1_024, 15),
        (1_023, 1_024, 14),
        (1_024, 1_023, 14),
        (0, 0, 14),
    ] {
        let lists = [buyers, sellers].map(|places| vec![UNTOUCHED; places]);
        let [mut buyers, mut sellers] = lists.clone();
        let answer = auction(&bad, 0, &mut buyers, &mut sellers);
        assert_eq!(answer, Answer::Refused(expected));
        assert_eq!([buyers, sellers], lists);
    }
}

#[test]
fn refused_15() {
    let order = |side, price, volume| Order {
        side,
        price,
        volume,
    };
    let good = sell(50_00, 100);
    for (bad, edge) in [
        (order(2, 50_00, 100), order(1, 50_00, 100)),
        (order(u32::MAX, 50_00, 100), order(0, 50_00, 100)),
        (order(0, 50_01, 100), order(0, 50_25, 100)),
        (order(0, LAST_PRICE + 200, 100), order(0, LAST_PRICE, 100)),
        (order(0, u32::MAX, 100), order(0, 1, 100)),
        (order(0, 50_00, 0), order(0, 50_00, 1)),
        (order(0, 0, 20_000_001), order(0, 0, 20_000_000)),
        (order(0, 50_00, u32::MAX), order(0, 50_00, 20_000_000)),
    ] {
        for place in 0..=2 {
            let mut orders = vec![good; 2];
            orders.insert(place, bad);
            assert_eq!(answer(&orders, 0), Answer::Refused(15), "{orders:?}");
            orders[place] = edge;
            assert!(!matches!(answer(&orders, 0), Answer::Refused(_)));
        }
        assert_eq!(answer(&[bad], 0), Answer::Refused(15), "{bad:?}");
    }
}

#[test]
fn words() {
    for (answer, words) in [
        (price(102_00, 3_500), "price 10200 volume 3500"),
        (Answer::None, "none"),
        (Answer::Refused(14), "refused 14"),
    ] {
        assert_eq!(answer.to_string(), words);
    }
}
