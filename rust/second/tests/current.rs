//! Request 7 of paper 02: an auction's list kept current, order by order.

mod common;

use common::books::{ATO, Book, DOCUMENT_002, DOCUMENT_003, UNTOUCHED, buy, sell};
use common::{Random, legal_prices};
use second::answer::Refusal;
use second::auction::{Answer, Order, auction_volumes};
use second::current;
use second::ladder::LAST_PRICE;

/// "places past the count are zero"
const ZERO: Order = order(0, 0, 0);

/// Bad by each of its three numbers. Stands past the count before a call.
const GARBAGE: Order = order(9, 50_01, 20_000_001);

const fn order(side: u32, price: u32, volume: u32) -> Order {
    Order {
        side,
        price,
        volume,
    }
}

fn price(price: u32, volume: u64) -> Answer {
    Answer::Price { price, volume }
}

/// Everything that a call may write. Each call is held against the paper.
#[derive(Clone, Debug, PartialEq)]
struct Lent {
    orders: Vec<Order>,
    count: usize,
    volumes: Vec<u64>,
}

impl Lent {
    /// A list of so many places that holds these orders, with garbage past them,
    /// and a scratch list of so many places.
    fn new(held: &[Order], length: usize, places: usize) -> Lent {
        let mut orders = held.to_vec();
        orders.resize(length, GARBAGE);
        Lent {
            orders,
            count: held.len(),
            volumes: vec![UNTOUCHED; places],
        }
    }

    /// A list of so many sound orders, lent with a count that may differ.
    fn counted(length: usize, count: usize) -> Lent {
        Lent {
            orders: vec![buy(ATO, 100); length],
            count,
            volumes: vec![UNTOUCHED; 1_024],
        }
    }

    fn held(&self) -> &[Order] {
        &self.orders[..self.count]
    }

    fn add(&mut self, order: Order, reference: u32) -> Answer {
        let before = self.clone();
        let answer = current::add(
            &mut self.orders,
            &mut self.count,
            order,
            reference,
            &mut self.volumes,
        );
        self.is_left_as_it_should_be(before, answer, reference, |held| held.push(order))
    }

    fn take(&mut self, place: usize, reference: u32) -> Answer {
        let before = self.clone();
        let answer = current::take(
            &mut self.orders,
            &mut self.count,
            place,
            reference,
            &mut self.volumes,
        );
        self.is_left_as_it_should_be(before, answer, reference, |held| {
            held.remove(place);
        })
    }

    /// "a refusal leaves list, count and scratch equal"; after another call the
    /// list is the held orders with the change, and zero past them, and "answer
    /// and scratch are request 6's, worked out afresh".
    fn is_left_as_it_should_be(
        &self,
        before: Lent,
        answer: Answer,
        reference: u32,
        change: impl FnOnce(&mut Vec<Order>),
    ) -> Answer {
        if matches!(answer, Answer::Refused(_)) {
            assert_eq!(*self, before, "{answer}");
            return answer;
        }
        let mut orders = before.held().to_vec();
        change(&mut orders);
        let count = orders.len();
        let mut volumes = vec![UNTOUCHED; before.volumes.len()];
        let afresh = auction_volumes(&orders, reference, &mut volumes);
        orders.resize(before.orders.len(), ZERO);
        let expected = Lent {
            orders,
            count,
            volumes,
        };
        assert_eq!(*self, expected);
        assert_eq!(answer, afresh);
        answer
    }

    /// The answers to a call of each kind, each with what was lent at first.
    fn would(&self, order: Order, place: usize) -> [Answer; 2] {
        [self.clone().add(order, 0), self.clone().take(place, 0)]
    }
}

fn is_refused(answer: Answer) -> bool {
    matches!(answer, Answer::Refused(_))
}

const REFERENCES: [u32; 7] = [0, 48_00, 49_00, 101_00, 102_00, 106_00, u32::MAX];

/// A document's book built up order by order, and taken down at the place that
/// `place` names for the count.
fn document(book: &Book, place: impl Fn(usize) -> usize) {
    let expected = price(book.price, book.volume);
    for reference in REFERENCES {
        for length in [book.orders.len(), 1_024, 1_030] {
            let mut lent = Lent::new(&[], length, 1_024);
            let mut last = Answer::None;
            for &order in book.orders {
                last = lent.add(order, reference);
                assert!(!is_refused(last));
            }
            assert_eq!(last, expected);
            assert_eq!(lent.held(), book.orders);
            while lent.count > 0 {
                last = lent.take(place(lent.count), reference);
                assert!(!is_refused(last));
            }
            assert_eq!(last, Answer::None);
            assert_eq!(lent.orders, vec![ZERO; length]);
            assert_eq!(lent.volumes, [0; 1_024]);
        }
    }
}

#[test]
fn document_002() {
    document(&DOCUMENT_002, |count| count - 1);
    document(&DOCUMENT_002, |_| 0);
    document(&DOCUMENT_002, |count| count / 2);
}

#[test]
fn document_003() {
    document(&DOCUMENT_003, |count| count - 1);
    document(&DOCUMENT_003, |_| 0);
    document(&DOCUMENT_003, |count| count / 2);
}

/// The price of document 003 in its printed numbers, as the last order comes and
/// goes.
#[test]
fn document_003_by_its_volumes() {
    let (&last, held) = DOCUMENT_003.orders.split_last().expect("five orders");
    let mut lent = Lent::new(held, 6, 1_025);
    assert_eq!(lent.add(last, 0), price(49_00, 900));
    assert_eq!(lent.volumes[..6], [900, 600, 900, 0, 0, 0]);
    // Without the ATO's 600 shares nobody sells below 49.00.
    assert_eq!(lent.take(4, 0), price(49_00, 400));
    assert_eq!(lent.volumes[..6], [400, 0, 400, 0, 0, 0]);
}

#[test]
fn adds_at_the_end() {
    let mut lent = Lent::new(&[], 4, 1_024);
    assert_eq!(lent.add(buy(11_00, 100), 0), Answer::None);
    assert_eq!(lent.add(sell(10_00, 60), 0), price(10_00, 60));
    assert_eq!(lent.add(sell(ATO, 70), 0), price(10_00, 100));
    let expected = [buy(11_00, 100), sell(10_00, 60), sell(ATO, 70), ZERO];
    assert_eq!(lent.orders, expected);
    assert_eq!(lent.count, 3);
    assert_eq!(lent.volumes[..4], [100, 100, 0, 0]);
}

#[test]
fn takes_out_and_closes_the_gap() {
    let [a, b, c] = [buy(11_00, 100), sell(10_00, 60), sell(10_50, 70)];
    for (place, left, answer, volumes) in [
        (0, [b, c], Answer::None, [0, 0]),
        (1, [a, c], price(10_50, 70), [70, 70]),
        (2, [a, b], price(10_00, 60), [60, 60]),
    ] {
        let mut lent = Lent::new(&[a, b, c], 5, 1_024);
        assert_eq!(lent.take(place, 0), answer);
        assert_eq!(lent.orders, [left[0], left[1], ZERO, ZERO, ZERO]);
        assert_eq!(lent.count, 2);
        assert_eq!(lent.volumes[..2], volumes);
        assert_eq!(lent.volumes[2..], [0; 1_022]);
    }
}

/// Of two orders that are alike, the one at the place goes.
#[test]
fn takes_out_by_place() {
    let [a, b] = [buy(10_00, 100), sell(10_00, 60)];
    for (place, left) in [(0, [b, a]), (1, [a, a]), (2, [a, b])] {
        let mut lent = Lent::new(&[a, b, a], 3, 1_024);
        lent.take(place, 0);
        assert_eq!(lent.held(), left);
    }
}

/// "each lent a reference": the price follows the call's own.
#[test]
fn the_reference_of_the_call() {
    let held = [buy(11_00, 100), sell(10_00, 100)];
    for (reference, given) in [
        (0, 10_00),
        (10_49, 10_00),
        (10_50, 11_00),
        (10_51, 11_00),
        (u32::MAX, 11_00),
    ] {
        let expected = price(given, 100);
        let mut lent = Lent::new(&held[..1], 3, 1_024);
        assert_eq!(lent.add(held[1], reference), expected);
        let mut lent = Lent::new(&[held[0], buy(ATO, 1), held[1]], 3, 1_024);
        assert_eq!(lent.take(1, reference), expected);
    }
}

/// "places past the count are zero afterwards", and never asked before.
#[test]
fn past_the_count() {
    let held = [buy(10_00, 100), sell(10_00, 60)];
    for length in [3, 4, 1_023, 1_024, 1_025, 3_000] {
        let mut lent = Lent::new(&held, length, 1_024);
        assert_eq!(lent.add(buy(10_00, 5), 0), price(10_00, 60));
        assert_eq!(lent.orders[3..], vec![ZERO; length - 3]);

        let mut lent = Lent::new(&held, length, 1_024);
        assert_eq!(lent.take(0, 0), Answer::None);
        assert_eq!(lent.orders[1..], vec![ZERO; length - 1]);

        // Garbage only at the last place, and sound orders past the count.
        for past in [GARBAGE, sell(9_00, 1_000)] {
            let mut orders = [&held[..], &vec![ZERO; length - 3], &[past]].concat();
            let mut count = 2;
            let mut volumes = vec![UNTOUCHED; 1_024];
            let order = buy(10_00, 5);
            let answer = current::add(&mut orders, &mut count, order, 0, &mut volumes);
            assert_eq!(answer, price(10_00, 60));
            assert_eq!((orders[length - 1] == ZERO, count), (length > 3, 3));
        }
    }
}

/// "request 6's scratch list": zero past the orders to its end, however long.
#[test]
fn the_scratch_list_to_its_end() {
    let held = [buy(10_00, 100), sell(10_00, 60)];
    for places in [1_024, 1_025, 3_000] {
        let mut lent = Lent::new(&held, 1_025, places);
        assert_eq!(lent.add(buy(ATO, 5), 0), price(10_00, 60));
        let expected = [vec![60, 60], vec![0; places - 2]].concat();
        assert_eq!(lent.volumes, expected);
        lent.volumes.fill(UNTOUCHED);
        assert_eq!(lent.take(1, 0), Answer::None);
        assert_eq!(lent.volumes, vec![0; places]);
    }
}

/// "Adding where the count is the list's length or 1,024, either call with a count
/// above one of these".
#[test]
fn refused_14_for_the_count() {
    const MAX: usize = usize::MAX;
    for (length, count, add, take) in [
        (1, 0, true, false),
        (1, 1, false, true),
        (1, 2, false, false),
        (1, MAX, false, false),
        (0, 1, false, false),
        (0, 1_024, false, false),
        (0, MAX, false, false),
        (5, 4, true, true),
        (5, 5, false, true),
        (5, 6, false, false),
        (5, 1_024, false, false),
        (1_023, 1_022, true, true),
        (1_023, 1_023, false, true),
        (1_023, 1_024, false, false),
        (1_023, 1_025, false, false),
        (1_024, 1_023, true, true),
        (1_024, 1_024, false, true),
        (1_024, 1_025, false, false),
        (1_024, MAX, false, false),
        (1_025, 1_023, true, true),
        (1_025, 1_024, false, true),
        (1_025, 1_025, false, false),
        (1_025, 1_026, false, false),
        (3_000, 1_023, true, true),
        (3_000, 1_024, false, true),
        (3_000, 1_025, false, false),
        (3_000, 2_999, false, false),
        (3_000, 3_000, false, false),
        (3_000, 3_001, false, false),
        (3_000, MAX - 1, false, false),
        (3_000, MAX, false, false),
    ] {
        let expected = |passes| match passes {
            true => Answer::None,
            false => Answer::Refused(14),
        };
        let lent = Lent::counted(length, count);
        let case = format!("count {count} of {length} places");
        assert_eq!(lent.clone().add(sell(ATO, 1), 0), expected(add), "{case}");
        // At a count of 0 no place is below it.
        if count > 0 {
            assert_eq!(lent.clone().take(0, 0), expected(take), "{case}");
            let last = count - 1;
            assert_eq!(lent.clone().take(last, 0), expected(take), "{case}");
        }
    }
}

#[test]
fn an_empty_list() {
    for length in [0, 1, 1_024, 1_025] {
        let mut lent = Lent::new(&[], length, 1_024);
        for place in [0, 1, 1_024, usize::MAX] {
            assert_eq!(lent.take(place, 0), Answer::Refused(16));
        }
        let expected = if length == 0 {
            Answer::Refused(14)
        } else {
            Answer::None
        };
        assert_eq!(lent.add(buy(10_00, 100), 0), expected);
    }
}

#[test]
fn refused_14_for_a_short_scratch_list() {
    for held in [
        &[][..],
        &[buy(10_00, 100)],
        &[buy(10_00, 100), sell(10_00, 60)],
    ] {
        for length in [3, 1_024, 1_025] {
            for places in [0, 1, 2, 3, 1_022, 1_023] {
                let lent = Lent::new(held, length, places);
                assert_eq!(lent.would(buy(ATO, 1), 0), [Answer::Refused(14); 2]);
            }
            for places in [1_024, 1_025] {
                let [add, take] = Lent::new(held, length, places).would(buy(ATO, 1), 0);
                assert!(!is_refused(add));
                assert_eq!(is_refused(take), held.is_empty());
            }
        }
    }
}

/// A bad order, and the sound one that is nearest to it.
const BAD_AND_EDGE: [(Order, Order); 9] = [
    (order(2, 50_00, 100), order(1, 50_00, 100)),
    (order(u32::MAX, 50_00, 100), order(0, 50_00, 100)),
    (order(0, 50_01, 100), order(0, 50_25, 100)),
    (order(1, LAST_PRICE + 200, 100), order(1, LAST_PRICE, 100)),
    (order(0, u32::MAX, 100), order(0, 1, 100)),
    (order(1, 50_00, 0), order(1, 50_00, 1)),
    (order(1, ATO, 0), order(1, ATO, 1)),
    (order(0, 50_00, 20_000_001), order(0, 50_00, 20_000_000)),
    (order(0, ATO, u32::MAX), order(0, ATO, 20_000_000)),
];

#[test]
fn refused_15_for_the_new_order() {
    for (bad, edge) in BAD_AND_EDGE {
        for held in [&[][..], &[buy(50_00, 100), sell(50_00, 100)]] {
            for length in [3, 1_024, 1_025] {
                let lent = Lent::new(held, length, 1_024);
                assert_eq!(lent.clone().add(bad, 0), Answer::Refused(15), "{bad:?}");
                assert!(!is_refused(lent.clone().add(edge, 0)), "{edge:?}");
            }
        }
    }
    // A zero order, as it stands past the count, is bad.
    assert_eq!(Lent::new(&[], 1, 1_024).add(ZERO, 0), Answer::Refused(15));
}

#[test]
fn refused_15_for_a_held_order() {
    for (bad, edge) in BAD_AND_EDGE {
        for count in [1, 2, 3, 1_023] {
            for bad_place in [0, count / 2, count - 1] {
                let mut held = vec![buy(ATO, 100); count];
                held[bad_place] = bad;
                let mut lent = Lent::new(&held, 1_024, 1_024);
                // Also where the bad order is the one to be taken out.
                for place in [0, bad_place, count - 1] {
                    let answers = lent.would(sell(50_00, 100), place);
                    assert_eq!(answers, [Answer::Refused(15); 2], "{bad:?}");
                    lent.orders[bad_place] = edge;
                    let answers = lent.would(sell(50_00, 100), place);
                    assert!(!answers.into_iter().any(is_refused), "{edge:?}");
                    lent.orders[bad_place] = bad;
                }
            }
        }
    }
}

/// A bad order is held at the last place below the count, not at the count.
#[test]
fn a_bad_order_at_the_count() {
    for bad_place in [1, 2] {
        let mut orders = vec![buy(10_00, 100); 4];
        orders[bad_place] = GARBAGE;
        let lent = Lent {
            orders,
            count: 2,
            volumes: vec![UNTOUCHED; 1_024],
        };
        let answers = lent.would(sell(10_00, 100), 0);
        assert_eq!(answers.map(is_refused), [bad_place < 2; 2]);
    }
    // In the last of 1,024 places, and just past it.
    for (bad_place, expected) in [(1_023, Answer::Refused(15)), (1_024, Answer::None)] {
        let mut lent = Lent::counted(1_025, 1_024);
        lent.orders[bad_place] = GARBAGE;
        assert_eq!(lent.take(0, 0), expected);
    }
}

#[test]
fn refused_16() {
    assert_eq!(Answer::from(Refusal::ListedPlace), Answer::Refused(16));
    for (length, count) in [(3, 3), (5, 3), (1_024, 1_024), (1_025, 1_024), (3_000, 1)] {
        let lent = Lent::counted(length, count);
        for place in [0, count / 2, count - 1] {
            assert_eq!(lent.clone().take(place, 0), Answer::None);
        }
        // At places past the count stand sound orders, which are not held.
        for place in [count, count + 1, length, 1_024, 3_000, usize::MAX] {
            assert_eq!(lent.clone().take(place, 0), Answer::Refused(16));
        }
    }
}

#[test]
fn order_of_the_refusals() {
    let sound = [buy(10_00, 100), sell(10_00, 100)];
    let bad = [buy(10_00, 100), GARBAGE];
    for (held, length, places, add, take) in [
        (&sound, 3, 1_024, 15, 16),
        (&bad, 3, 1_024, 15, 15),
        (&sound, 3, 1_023, 14, 14),
        (&bad, 3, 1_023, 14, 14),
        // The count is the length: no more than adding is refused for it.
        (&sound, 2, 1_024, 14, 16),
        (&bad, 2, 1_024, 14, 15),
        (&bad, 2, 1_023, 14, 14),
    ] {
        let lent = Lent::new(held, length, places);
        let answers = lent.would(GARBAGE, 2);
        assert_eq!(answers, [add, take].map(Answer::Refused));
    }
    // A count above the length or 1,024, with orders and places of every kind.
    for (length, count) in [(2, 3), (0, 1), (1_025, 1_025), (3_000, usize::MAX)] {
        for place in [0, count - 1, count, usize::MAX] {
            for stands in [buy(10_00, 100), GARBAGE] {
                let mut lent = Lent::counted(length, count);
                lent.orders.fill(stands);
                for order in [buy(10_00, 100), GARBAGE] {
                    assert_eq!(lent.would(order, place), [Answer::Refused(14); 2]);
                }
            }
        }
    }
    // Adding at a count of 1,024.
    let mut lent = Lent::counted(1_030, 1_024);
    assert_eq!(lent.would(GARBAGE, 1_024), [14, 16].map(Answer::Refused));
    lent.orders[1_023] = GARBAGE;
    assert_eq!(lent.would(GARBAGE, 1_024), [14, 15].map(Answer::Refused));
}

/// An order added and taken out again leaves everything as it was.
#[test]
fn an_add_and_a_take_of_it() {
    for book in [DOCUMENT_002, DOCUMENT_003] {
        let count = book.orders.len();
        for length in [count + 1, 1_024, 1_025] {
            let mut orders = book.orders.to_vec();
            orders.resize(length, ZERO);
            let mut volumes = vec![UNTOUCHED; 1_030];
            let given = auction_volumes(book.orders, 49_00, &mut volumes);
            let lent = Lent {
                orders,
                count,
                volumes,
            };
            for order in [buy(ATO, 20_000_000), sell(1, 5_000), buy(52_00, 1)] {
                let mut after = lent.clone();
                assert!(!is_refused(after.add(order, 49_00)));
                assert_ne!(after, lent);
                assert_eq!(after.take(count, 49_00), given);
                assert_eq!(after, lent);
            }
        }
    }
}

/// And the last order taken out and added again.
#[test]
fn a_take_of_the_last_and_an_add_of_it() {
    for book in [DOCUMENT_002, DOCUMENT_003] {
        let (&last, held) = book.orders.split_last().expect("orders");
        let mut lent = Lent::new(held, 20, 1_024);
        let given = lent.add(last, 0);
        assert_eq!(given, price(book.price, book.volume));
        let before = lent.clone();
        assert!(!is_refused(lent.take(held.len(), 0)));
        assert_ne!(lent, before);
        assert_eq!(lent.add(last, 0), given);
        assert_eq!(lent, before);
    }
}

/// From empty to 1,024 orders and back.
#[test]
fn the_whole_way_up_and_down() {
    for length in [1_024, 1_025, 1_100] {
        let mut lent = Lent::new(&[], length, 1_024);
        assert_eq!(lent.add(buy(10_00, 600), 0), Answer::None);
        for count in 1..1_024 {
            let expected = price(10_00, count.min(600));
            assert_eq!(lent.add(sell(ATO, 1), 0), expected);
        }
        assert_eq!(lent.count, 1_024);
        assert_eq!(lent.add(sell(ATO, 1), 0), Answer::Refused(14));
        assert_eq!(lent.take(1_024, 0), Answer::Refused(16));
        for count in (1..1_024).rev() {
            let expected = match count - 1 {
                0 => Answer::None,
                sellers => price(10_00, sellers.min(600)),
            };
            assert_eq!(lent.take(count as usize, 0), expected);
        }
        assert_eq!(lent.take(0, 0), Answer::None);
        assert_eq!(lent.take(0, 0), Answer::Refused(16));
        assert_eq!(lent.orders, vec![ZERO; length]);
    }
}

#[test]
fn sums_do_not_wrap() {
    let mut held = vec![buy(50_00, 20_000_000); 512];
    held.extend([sell(50_00, 20_000_000); 511]);
    let mut lent = Lent::new(&held, 1_024, 1_024);
    let answer = lent.add(sell(50_00, 20_000_000), 0);
    assert_eq!(answer, price(50_00, 10_240_000_000));
    assert_eq!(lent.volumes, [10_240_000_000; 1_024]);
    assert_eq!(lent.take(0, 0), price(50_00, 10_220_000_000));
}

/// Few prices and few volumes, so that candidates are often alike; seldom bad.
fn any_order(random: &mut Random) -> Order {
    let prices = [ATO, 9_90, 9_95, 10_00, 10_10, 10_20, 10_30, 10_40];
    let mut order = Order {
        side: random.below(2),
        price: random.pick(&prices),
        volume: random.pick(&[100, 100, 100, 200, 300, 20_000_000]),
    };
    match random.below(60) {
        0 => order.side = 2,
        1 => order.price = 10_01,
        2 => order.volume = 0,
        3 => order.volume = 20_000_001,
        _ => {}
    }
    order
}

fn is_bad(order: &Order, legal: &[u32]) -> bool {
    // Place 0 of the legal prices holds 0, which is good too.
    order.side > 1
        || legal.binary_search(&order.price).is_err()
        || order.volume < 1
        || order.volume > 20_000_000
}

/// Calls in any mixture, each held against a plain list: the number by the paper,
/// or the list changed.
#[test]
fn random_histories() {
    let legal = legal_prices();
    let mut random = Random::new(7);
    let mut answers = [0; 17];
    for _ in 0..150 {
        let length = random.pick(&[0, 1, 2, 5, 20, 1_024, 1_025, 1_500]);
        let places = random.pick(&[1_023, 1_024, 1_024, 1_024, 1_025, 1_500]);
        let mut model: Vec<Order> = Vec::new();
        // Close to 1,024, mostly ATO so that the auction has few candidates.
        if length >= 1_024 && random.once_in(4) {
            model.resize(1_021, sell(ATO, 100));
            model.push(buy(10_00, 500));
        }
        let mut lent = Lent::new(&model, length, places);
        for _ in 0..30 {
            let reference = random.pick(&[0, 9_95, 9_97, 10_05, 10_15, 10_30, u32::MAX]);
            let count = model.len();
            // A held order is damaged between two calls, and mended again later.
            let damaged = (count > 0 && random.once_in(20)).then(|| {
                let place = random.below(count as u32) as usize;
                let sound = lent.orders[place];
                lent.orders[place].price = 10_01;
                (place, sound)
            });
            // So is the count.
            let lent_count = match random.below(40) {
                0 => length + 1,
                1 => usize::MAX,
                2 => 1_025,
                _ => count,
            };
            lent.count = lent_count;

            let above = lent_count > length || lent_count > 1_024;
            let short = places < 1_024;
            let (answer, expected) = if random.below(5) < 3 {
                let order = any_order(&mut random);
                let expected = if above || lent_count == length || lent_count == 1_024 || short {
                    14
                } else if is_bad(&order, &legal) || damaged.is_some() {
                    15
                } else {
                    model.push(order);
                    0
                };
                (lent.add(order, reference), expected)
            } else {
                let beyond = random.pick(&[0, 0, 0, 1, 2, 2_000]);
                let place = random.below(count as u32 + 1) as usize + beyond;
                let expected = if above || short {
                    14
                } else if damaged.is_some() {
                    15
                } else if place >= count {
                    16
                } else {
                    model.remove(place);
                    0
                };
                (lent.take(place, reference), expected)
            };
            answers[expected as usize] += 1;

            match answer {
                Answer::Refused(number) => {
                    assert_eq!(number, expected);
                    assert_eq!(lent.count, lent_count);
                    lent.count = count;
                    if let Some((place, sound)) = damaged {
                        lent.orders[place] = sound;
                    }
                }
                _ => assert_eq!(expected, 0),
            }
            assert_eq!(lent.held(), model);
        }
    }
    for number in [0, 14, 15, 16] {
        assert!(answers[number] > 100, "{answers:?}");
    }
}
