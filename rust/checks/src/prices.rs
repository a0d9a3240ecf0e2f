//! Random prices and volumes on both sides of every edge of the rules.

use second::codes::{Board, OrderType};
use second::ladder::{self, FIRST_PRICE, LAST_PRICE, Nearest, POSITIONS};
use second::range::Range;
use second::state::{MAX_VOLUME, Row, Security};

use crate::random::Random;

/// 500 million and 3 million baht, in satang.
const MAX_VALUE: u64 = 500_000_000_00;
const REPEAT_VALUE: u64 = 3_000_000_00;

/// Positions beside which the step changes, 1.00 baht, the two ends, and some
/// between.
const MIDDLES: [u32; 21] = [
    1, 12, 100, 150, 199, 200, 349, 350, 449, 450, 500, 595, 600, 700, 899, 900, 1_099, 1_100,
    1_300, 2_000, 51_100,
];

/// A position around which a security trades.
pub fn middle(random: &mut Random) -> u32 {
    match random.below(6) {
        0 => 1 + random.below(POSITIONS),
        _ => random.pick(&MIDDLES),
    }
}

/// A ladder price so many positions away, within the ladder.
pub fn step(position: u32, away: i32) -> u32 {
    let position = position.saturating_add_signed(away).clamp(1, POSITIONS);
    ladder::price(position).expect("the position is on the ladder")
}

pub fn position_at_or_below(price: u32) -> u32 {
    nearest(price).lower
}

/// The nearest positions of a price, or of that end of the ladder which it is
/// beyond.
pub fn nearest(price: u32) -> Nearest {
    let price = price.clamp(FIRST_PRICE, LAST_PRICE);
    ladder::nearest(price).expect("the price is one of those that the ladder answers for")
}

/// Prices between this position's and the next one's: beside both, and two
/// inside. There are none where a step is one satang.
pub fn between(position: u32) -> Vec<u32> {
    let (low, high) = (step(position, 0), step(position, 1));
    let gap = high - low;
    let mut prices = vec![low + 1, low + gap / 3, low + gap / 2, high - 1];
    prices.retain(|price| (low + 1..high).contains(price));
    prices.dedup();
    prices
}

/// A price of the market, absent now and then.
pub fn market_price(random: &mut Random, middle: u32) -> u32 {
    match random.below(10) {
        0..=2 => 0,
        3..=7 => step(middle, random.below(7) as i32 - 3),
        8 => step(middle, random.below(41) as i32 - 20),
        _ => step(1 + random.below(POSITIONS), 0),
    }
}

/// A prior close, mostly between two steps, and now and then above 10,000,000.
pub fn prior_close(random: &mut Random, middle: u32) -> u32 {
    let near = step(middle, random.below(7) as i32 - 3);
    let closes = between(position_at_or_below(near));
    match random.below(16) {
        0 => LAST_PRICE + 1 + random.below(300),
        1..=10 if !closes.is_empty() => random.pick(&closes),
        _ => market_price(random, middle),
    }
}

/// The price of a limit order that few rules have anything against: next to the
/// price that the market has first.
pub fn price_near(random: &mut Random, security: &Security, board: Board, middle: u32) -> u32 {
    let quotes = security.quotes(board);
    let first = [quotes.projected, quotes.last, security.main.last]
        .into_iter()
        .find(|&price| price != 0);
    let position = first.map_or(middle, position_at_or_below);
    let price = step(position, random.below(3) as i32 - 1);
    match range_on(security, board) {
        Some(range) => price.min(range.ceiling).max(range.floor),
        None => price,
    }
}

/// The range that an order on this board meets.
fn range_on(security: &Security, board: Board) -> Option<Range> {
    Range::of(security).filter(|_| board == Board::Main)
}

/// At the floor or the ceiling, or one step inside or outside.
fn beside_edge(random: &mut Random, range: Range) -> u32 {
    let edge = random.pick(&[range.floor, range.ceiling]);
    step(position_at_or_below(edge), random.below(3) as i32 - 1)
}

/// The price of a limit order: at or near one of the prices it is compared with.
pub fn limit_price(
    random: &mut Random,
    security: &Security,
    board: Board,
    rows: &[Row],
    middle: u32,
) -> u32 {
    let quotes = security.quotes(board);
    if board == Board::Main && warn_10_takes_adjusted_close(security) && random.once_in(2) {
        return ten_or_eleven_from(random, security.prior_close);
    }
    if let Some(range) = range_on(security, board)
        && random.once_in(2)
    {
        return beside_edge(random, range);
    }
    let row = (!rows.is_empty()).then(|| random.pick(rows).price);
    let compared: Vec<u32> = [
        quotes.projected,
        quotes.last,
        quotes.bid,
        quotes.offer,
        security.main.projected,
        security.main.last,
        security.prior_close,
        security.ipo,
        row.unwrap_or(0),
    ]
    .into_iter()
    .filter(|&price| price != 0)
    .collect();
    if compared.is_empty() || random.once_in(12) {
        return step(middle, random.below(9) as i32 - 4);
    }
    let reference = random.pick(&compared);
    let Nearest { lower, upper, .. } = nearest(reference);
    let position = random.pick(&[lower, upper]);
    let sign = random.pick(&[-1, 1]);
    match random.below(16) {
        0..=3 => step(position, 0),
        4..=7 => step(position, sign * (1 + random.below(3) as i32)),
        8 | 9 => step(position, sign * (9 + random.below(4) as i32)),
        10..=12 => {
            let percent = random.pick(&[50, 70, 130, 150]);
            let edge = u64::from(reference) * percent / 100;
            let edge = position_at_or_below(edge.min(u64::from(LAST_PRICE)) as u32);
            step(edge, random.below(4) as i32 - 1)
        }
        13 | 14 => step(position, 0),
        _ if random.once_in(8) => random.word() % (LAST_PRICE + 1_000),
        _ => step(1 + random.below(POSITIONS), 0),
    }
}

/// Its reference on the main board is the prior close, which lies between two
/// steps.
fn warn_10_takes_adjusted_close(security: &Security) -> bool {
    security.main.projected == 0
        && security.main.last == 0
        && security.prior_close != 0
        && !ladder::legal(security.prior_close)
}

/// One of the four edges of warn 10 by such a close.
fn ten_or_eleven_from(random: &mut Random, close: u32) -> u32 {
    let Nearest { lower, upper, .. } = nearest(close);
    let away = 10 + random.below(2) as i32;
    match random.below(2) {
        0 => step(lower, away),
        _ => step(upper, -away),
    }
}

/// A volume, for a limit also by what the order or a row is worth.
pub fn volume(random: &mut Random, lot: u32, price: u32, rows: &[Row]) -> u32 {
    let lots = |volume: u64| (volume / u64::from(lot) * u64::from(lot)).min(u64::from(u32::MAX));
    let priced = u64::from(price.max(1));
    let one_lot_around = |random: &mut Random, volume: u64| {
        let around = lots(volume) + u64::from(lot) * u64::from(random.below(3));
        around.saturating_sub(u64::from(lot)) as u32
    };
    match random.below(20) {
        0..=9 => lot * (1 + random.below(10)),
        10..=12 => one_lot_around(random, (REPEAT_VALUE).div_ceil(priced)),
        13 => one_lot_around(random, MAX_VALUE / priced),
        14 => one_lot_around(random, u64::from(MAX_VOLUME)),
        15 | 16 if !rows.is_empty() => {
            let other = u64::from(random.pick(rows).volume);
            one_lot_around(random, other / 2)
        }
        17 => random.pick(&[0, 1, lot + 1, lot / 2]),
        18 if random.once_in(4) => random.word(),
        _ => lot * (1 + random.below(1_000)),
    }
}

/// The volume of an order that repeats a cancelled one.
pub fn repeated_volume(random: &mut Random, lot: u32, cancelled: &Row) -> u32 {
    let least = REPEAT_VALUE.div_ceil(u64::from(cancelled.price.max(1)));
    let whole = |volume: u32| volume / lot * lot;
    let half = whole(cancelled.volume.div_ceil(2) + lot - 1);
    match random.below(6) {
        0 => cancelled.volume,
        1 => half,
        2 => half.saturating_sub(lot),
        3 => half + lot,
        4 => whole((least as u32).saturating_add(lot - 1)),
        _ => whole(least as u32).saturating_sub(lot),
    }
}

/// A type that the session takes, mostly.
pub fn order_type(random: &mut Random, fitting: OrderType) -> OrderType {
    use OrderType::{Atc, Ato, Limit, Mp};
    match random.below(16) {
        0..=11 => Limit,
        12..=14 => fitting,
        _ => random.pick(&[Ato, Atc, Mp]),
    }
}
