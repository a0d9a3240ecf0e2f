//! Request 3 of paper 02: the daily ceiling and floor, rule C, and the figures
//! of kind 9.

mod common;

use common::*;
use second::encode;
use second::event::Order;
use second::ladder::LAST_PRICE;
use second::range::{ceiling, floor};

/// A session with this prior close, not free.
fn after_close(session: u8, close: u32) -> Pair {
    Pair::new()
        .ok(&encode::session(session))
        .ok(&setup(0, 0, close, 0))
}

/// Floor and ceiling, which must be where C begins.
fn range(pair: &Pair) -> (u32, u32) {
    let words = &pair.gate.words;
    let (floor, ceiling) = (floor(words, 0), ceiling(words, 0));
    let prices = legal_prices();
    let place = |price| prices.iter().position(|&legal| legal == price).unwrap();
    for edge in [place(floor), place(ceiling)] {
        let around = &prices[edge.saturating_sub(2).max(1)..];
        for &price in around.iter().take(5) {
            let inside = floor <= price && price <= ceiling;
            let is_c = pair.would(front(price)) == C;
            assert_eq!(is_c, !inside, "{price} in {floor} to {ceiling}");
        }
    }
    (floor, ceiling)
}

fn front(price: u32) -> Order {
    Order {
        channel: FRONT,
        ..buy(1, price, 1_00)
    }
}

/// The range by this close and these figures, in any session that has limits.
fn range_by(close: u32, [dividend, subscription]: [u32; 2], [old, new]: [u16; 2]) -> (u32, u32) {
    let event = figures(dividend, subscription, old, new);
    let ranges = [PRE_OPEN, OPEN, PRE_CLOSE].map(|s| range(&after_close(s, close).ok(&event)));
    assert_eq!(ranges[0], ranges[1]);
    assert_eq!(ranges[0], ranges[2]);
    ranges[0]
}

fn range_by_close(close: u32) -> (u32, u32) {
    range(&after_close(OPEN, close))
}

#[test]
fn the_figure_of_the_paper() {
    assert_eq!(range_by(150_00, [0, 10_00], [2, 3]), (46_25, 85_75));
    let pair = after_close(OPEN, 150_00).ok(&figures(0, 10_00, 2, 3));
    for (price, answer) in [
        (46_00, C),
        (46_25, ACCEPT),
        (46_50, ACCEPT),
        (85_50, ACCEPT),
        (85_75, ACCEPT),
        (86_00, C),
    ] {
        for channel in [FRONT, ONLINE, DMA] {
            for side in [BUY, SELL] {
                let order = Order {
                    channel,
                    side,
                    ..front(price)
                };
                assert_eq!(pair.would(order), answer, "{price}");
            }
        }
    }
}

#[test]
fn on_both_sides_of_1_00_baht() {
    assert_eq!(range_by_close(99), (1, 1_98));
    assert_eq!(range_by_close(1_00), (70, 1_30));
    assert_eq!(range_by_close(1), (1, 2));
    assert_eq!(range_by_close(50), (1, 1_00));
    assert_eq!(range_by_close(1_01), (71, 1_31));
    // Below 1.00 baht figures change nothing; at it the base may be far below.
    assert_eq!(range_by(99, [98, 0], [1, 65_535]), (1, 1_98));
    assert_eq!(range_by(1_00, [50, 0], [1, 0]), (35, 65));
}

#[test]
fn adjusted_and_legal_closes() {
    // 130% of 65.60 is 85.28, and 70% is 45.92.
    assert_eq!(range_by_close(65_60), (46_00, 85_25));
    assert_eq!(range_by_close(65_50), (46_00, 85_00));
    assert_eq!(range_by_close(10_00), (7_00, 13_00));
    assert_eq!(range_by_close(400_00), (280_00, 520_00));
    // 130% of 1.54 is 2.002, and 70% of 2.87 is 2.009.
    assert_eq!(range_by_close(1_54), (1_08, 2_00));
    assert_eq!(range_by_close(2_87), (2_02, 3_72));
}

#[test]
fn figures_never_raise_the_base() {
    let by_close = range_by_close(50_00);
    assert_eq!(by_close, (35_00, 65_00));
    assert_eq!(range_by(50_00, [0, 50_00], [1, 1]), by_close);
    assert_eq!(range_by(50_00, [0, 50_01], [1, 1]), by_close);
    assert_eq!(range_by(50_00, [0, 90_00], [1, 1]), by_close);
    assert_eq!(range_by(50_00, [0, 0], [1, 0]), by_close);
    // The dividend takes 2.00 off two shares, the new one brings 2.00 and more.
    assert_eq!(range_by(50_00, [1_00, 52_00], [2, 1]), by_close);
    assert_eq!(range_by(50_00, [1_00, 51_00], [2, 1]), (35_00, 64_50));
    // The largest that the event can say.
    let most = u16::MAX;
    assert_eq!(range_by(50_00, [0, u32::MAX], [1, most]), by_close);
    assert_eq!(range_by(50_00, [49_99, u32::MAX], [most, most]), by_close);
    assert_eq!(range_by(50_00, [0, u32::MAX], [most, 0]), by_close);
}

#[test]
fn a_dividend_one_below_the_close() {
    assert_eq!(range_by(50_00, [49_99, 0], [1, 0]), (1, 1));
    assert_eq!(range_by(50_00, [49_98, 0], [1, 0]), (2, 2));
    assert_eq!(range_by(50_00, [49_99, 10_00], [1, 1]), (3_52, 6_50));
    let most = u16::MAX;
    // A base far below one satang: 130% has no legal price, and 1 stands in.
    assert_eq!(range_by(50_00, [49_99, 0], [1, most]), (1, 1));
    assert_eq!(range_by(LAST_PRICE, [9_999_999, 0], [1, most]), (1, 1));
}

#[test]
fn at_the_end_of_the_ladder() {
    assert_eq!(range_by_close(LAST_PRICE), (7_000_000, LAST_PRICE));
    assert_eq!(range_by_close(9_999_999), (7_000_000, LAST_PRICE));
    // 130% of 76,923.07 is 99,999.99; of 76,923.08, 100,000.004.
    assert_eq!(range_by_close(7_692_307).1, 9_999_800);
    assert_eq!(range_by_close(7_692_308).1, LAST_PRICE);
    let most = u16::MAX;
    let by_close = (7_000_000, LAST_PRICE);
    assert_eq!(range_by(LAST_PRICE, [0, u32::MAX], [most, most]), by_close);
    assert_eq!(range_by(LAST_PRICE, [0, LAST_PRICE], [1, most]), by_close);
}

/// No rounding on the way: the base is 1.5 satang, 70% of it 1.05 and 130% 1.95.
#[test]
fn a_floor_above_the_ceiling() {
    let pair = after_close(PRE_OPEN, 1_00).ok(&figures(97, 0, 1, 1));
    assert_eq!(range(&pair), (2, 1));
    for price in [1, 2, 3, 1_00, LAST_PRICE] {
        assert_eq!(pair.would(front(price)), C, "{price}");
    }
    assert_eq!(pair.would(priceless(ATO, BUY, 1)), ACCEPT);
}

#[test]
fn who_has_no_range() {
    let close = 50_00;
    let far = [1, 34_75, 65_25, LAST_PRICE];
    let figures = figures(0, 10_00, 2, 3);
    for (free, close) in [(1, close), (0, 0), (1, 0)] {
        let pair = Pair::new()
            .ok(&encode::session(OPEN))
            .ok(&setup(free, 0, close, 0));
        let words = &pair.gate.words;
        assert_eq!((floor(words, 0), ceiling(words, 0)), (0, 0));
        for price in far {
            assert_eq!(pair.would(front(price)), ACCEPT, "{price}");
        }
    }
    // A free security takes figures, which then do nothing.
    let mut pair = Pair::new()
        .ok(&encode::session(OPEN))
        .ok(&setup(1, 0, close, 0));
    assert_eq!(pair.send(&figures), OK);
    assert_eq!(pair.would(front(LAST_PRICE)), ACCEPT);
    // Limits of the foreign board, and orders without a price.
    let pair = after_close(OPEN, close).ok(&prices(MAIN, [0, 0, 1_00, 99_00]));
    for price in far {
        let foreign = Order {
            board: FOREIGN,
            ..front(price)
        };
        assert_eq!(pair.would(foreign), ACCEPT, "{price}");
        assert_eq!(pair.would(front(price)), C, "{price}");
    }
    for side in [BUY, SELL] {
        assert_eq!(pair.would(priceless(MP, side, 1)), ACCEPT);
        let pre_open = after_close(PRE_OPEN, close);
        assert_eq!(pre_open.would(priceless(ATO, side, 1)), ACCEPT);
        let pre_close = after_close(PRE_CLOSE, close);
        assert_eq!(pre_close.would(priceless(ATC, side, 1)), ACCEPT);
    }
}

/// "with C, between V and Q": W, P and the warnings come later still. Q itself is
/// for free securities only, so no order gets both.
#[test]
fn after_s_and_v_before_the_others() {
    for session in [CLOSED, BREAK] {
        assert_eq!(after_close(session, 50_00).would(front(1)), S);
    }
    let order = |order: Order| encode::order(&order);
    let mut pair = Pair::new().ok(&encode::session(OPEN));
    assert_eq!(pair.would(buy(9, 70_00, 1)), V);
    assert_eq!(pair.send(&order(sell(1, 70_00, 60_000))), ACCEPT);
    assert_eq!(pair.send(&order(buy(2, 30_00, 100_000))), ACCEPT);
    assert_eq!(pair.send(&encode::cancel(0, 2)), OK);
    assert_eq!(pair.would(buy(9, 70_00, 100)), W);
    assert_eq!(pair.would(buy(9, 30_00, 100_000)), P);
    assert_eq!(pair.would(buy(9, 34_75, 100)), ACCEPT);
    pair = pair.ok(&setup(0, 0, 50_00, 0));
    assert_eq!(pair.would(buy(9, 70_00, 1)), V);
    for price in [70_00, 30_00, 34_75] {
        assert_eq!(pair.would(buy(9, price, 100_000)), C);
    }
    pair = pair.ok(&encode::session(PRE_CLOSE));
    assert_eq!(pair.would(sell(9, 34_75, 100)), C);
    assert_eq!(pair.would(sell(9, 35_00, 100)), WARN_10);
}

/// A rejected order adds to its counter and takes no row.
#[test]
fn what_c_leaves() {
    let mut pair = after_close(OPEN, 50_00);
    assert_eq!(pair.send(&encode::order(&front(70_00))), C);
    assert_eq!(pair.gate.counters(0), [0, 0, 1]);
    assert!(pair.gate.numbers(0).is_empty());
    // The exchange's own price of a rest is no order.
    pair = pair.ok(&prices(MAIN, [0, 0, 49_75, 50_25]));
    assert_eq!(pair.send(&encode::order(&priceless(MP, BUY, 2))), ACCEPT);
    assert_eq!(pair.send(&encode::rest(0, 2, 70_00)), OK);
}

#[test]
fn what_sets_and_clears_the_figures() {
    let mut pair = after_close(PRE_OPEN, 150_00);
    let held = |pair: &Pair| pair.gate.security(0)[13..].to_vec();
    assert_eq!(held(&pair), [0; 4]);
    pair = pair.ok(&figures(1_00, 10_00, 2, 3));
    assert_eq!(held(&pair), [1_00, 10_00, 2, 3]);
    let by_first = range(&pair);
    // The second replaces the first and is not added to it.
    pair = pair.ok(&figures(0, 20_00, 1, 1));
    assert_eq!(held(&pair), [0, 20_00, 1, 1]);
    assert_ne!(range(&pair), by_first);
    // A refused one changes nothing.
    assert_eq!(pair.send(&figures(150_00, 1, 1, 1)), refused(13));
    assert_eq!(pair.send(&figures(0, 1, 0, 1)), refused(13));
    assert_eq!(pair.send(&setup(0, 0, LAST_PRICE + 1, 0)), refused(6));
    // Nor do sessions, prices and the clock.
    pair = pair
        .ok(&encode::session(OPEN))
        .ok(&prices(MAIN, [0, 150_00, 149_50, 150_50]))
        .ok(&prices(FOREIGN, [0, 150_00, 149_50, 150_50]))
        .ok(&encode::clock(1));
    assert_eq!(held(&pair), [0, 20_00, 1, 1]);
    // Kind 3 clears them, also with the close that stands there.
    pair = pair.ok(&setup(0, 0, 150_00, 0));
    assert_eq!(held(&pair), [0; 4]);
    assert_eq!(range(&pair), range_by_close(150_00));
}

/// A close, dividend and subscription, old and new shares.
fn any_figures(random: &mut Random) -> (u32, [u32; 2], [u16; 2]) {
    let most = random.pick(&[1 << 6, 1 << 9, 1 << 12, 1 << 16, 1 << 20, 9_999_901]);
    let close = 1_00 + random.below(most);
    let dividend = random.below(close) >> random.below(24);
    let subscription = random.next() as u32 >> random.below(32);
    let shares = [1, 0].map(|least| (random.next() as u16 >> random.below(16)).max(least));
    (close, [dividend, subscription], shares)
}

/// By the definition, over the walked list. All sides are times ten and times the
/// shares, so that they are whole.
#[test]
fn ranges_by_the_list_of_legal_prices() {
    let prices = &legal_prices()[1..];
    let mut random = Random::new(3);
    for _ in 0..5_000 {
        let (close, [dividend, subscription], [old, new]) = any_figures(&mut random);
        let pair =
            Pair::new()
                .ok(&setup(0, 0, close, 0))
                .ok(&figures(dividend, subscription, old, new));
        let words = &pair.gate.words;
        let shares = u64::from(old) + u64::from(new);
        let after_right =
            u64::from(close - dividend) * u64::from(old) + u64::from(subscription) * u64::from(new);
        let base = after_right.min(u64::from(close) * shares);
        let times = |price: u32| u64::from(price) * shares * 10;
        let least = prices.iter().find(|&&price| times(price) >= 7 * base);
        let within = prices
            .iter()
            .take_while(|&&price| times(price) <= 13 * base);
        assert_eq!(floor(words, 0), *least.unwrap(), "{close}");
        assert_eq!(ceiling(words, 0), *within.last().unwrap_or(&1), "{close}");
    }
}

#[test]
fn lent_words_without_a_range() {
    let mut gate = Gate::new(2, 3);
    for security in 0..3 {
        let mut event = setup(0, 0, 50_00, 0);
        event[1] = security;
        gate.ok(&event);
    }
    let ranges = |words: &[u32], security| (floor(words, security), ceiling(words, security));
    for security in 0..3 {
        assert_eq!(ranges(&gate.words, security), (35_00, 65_00));
    }
    for security in [3, 4, 1_024, 65_536, 1 << 31, u32::MAX] {
        assert_eq!(ranges(&gate.words, security), (0, 0), "{security}");
    }
    let words = gate.words.clone();
    for length in [0, 1, 3, 4, 21, words.len() - 1] {
        assert_eq!(ranges(&words[..length], 0), (0, 0), "{length}");
    }
    for (word, value) in [(0, 3), (1, 2), (2, 86_400_000), (3, 5)] {
        let mut damaged = words.clone();
        damaged[word] = value;
        assert_eq!(ranges(&damaged, 0), (0, 0), "{word}");
    }
    // A security that is not sound, and one beside it. A desk is not read.
    let mut damaged = words.clone();
    damaged[4] = 2;
    let last = damaged.len() - 1;
    damaged[last] = 1;
    assert_eq!(ranges(&damaged, 0), (0, 0));
    assert_eq!(ranges(&damaged, 1), (35_00, 65_00));
}
