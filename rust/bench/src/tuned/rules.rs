//! The verdict on an order that is not refused.

use super::desk::is_open_or_in_minute;
use super::ladder::positions;
use super::layout::*;

pub const ACCEPT: u32 = 100;
pub const WARN_10: u32 = 110;
pub const WARN_30: u32 = 130;
const REJECT_C: u32 = 203;
const REJECT_P: u32 = 216;
const REJECT_Q: u32 = 217;
const REJECT_S: u32 = 219;
const REJECT_V: u32 = 222;
const REJECT_W: u32 = 223;

/// 500 million baht, in satang.
const MAX_VALUE: u64 = 500_000_000_00;
/// 3 million baht, in satang.
const REPEAT_VALUE: u64 = 3_000_000_00;

const PRE_OPEN: u32 = 1;
const OPEN_SESSION: u32 = 2;
const PRE_CLOSE: u32 = 4;

const MAIN_BOARD: u32 = 0;
const BUY: u32 = 0;
const FRONT_OFFICE: u32 = 0;
const ONLINE: u32 = 1;

/// An order and what it meets.
pub struct View<'a> {
    pub session: u32,
    pub clock: u32,
    /// The order's security.
    pub security: &'a Security,
    /// The customer's marked rows.
    pub rows: &'a [Row],
    /// As the row that it leaves.
    pub order: &'a Row,
    pub channel: u32,
}

impl View<'_> {
    pub fn verdict(&self) -> u32 {
        let is_limit = self.order[TYPE] == LIMIT;
        let is_open = self.session == OPEN_SESSION;
        if self.is_out_of_session() {
            REJECT_S
        } else if self.is_size_wrong() {
            REJECT_V
        } else if is_limit && self.is_outside_range() {
            REJECT_C
        } else if is_limit && !is_open && self.is_beyond_half() {
            REJECT_Q
        } else if self.channel == ONLINE && self.meets_own() {
            REJECT_W
        } else if is_limit && is_open && self.is_repeat() {
            REJECT_P
        } else if is_limit && is_open && self.is_free_and_beyond(self.last_sale(), 70, 130) {
            WARN_30
        } else if is_limit && !is_open && self.is_far() {
            WARN_10
        } else {
            ACCEPT
        }
    }

    /// S. Behind it a session is open, pre-open or pre-close.
    fn is_out_of_session(&self) -> bool {
        match self.order[TYPE] {
            LIMIT => !matches!(self.session, PRE_OPEN | OPEN_SESSION | PRE_CLOSE),
            ATO => self.session != PRE_OPEN,
            ATC => self.session != PRE_CLOSE,
            _ => self.session != OPEN_SESSION || self.best_opposite() == 0,
        }
    }

    /// V. Only a limit has a value: the price of other types is 0.
    fn is_size_wrong(&self) -> bool {
        let volume = self.order[VOLUME];
        let are_lots_whole = match self.security[LOT] {
            1 => true,
            50 => volume.is_multiple_of(50),
            _ => volume.is_multiple_of(100),
        };
        !(1..=MAX_VOLUME).contains(&volume) || !are_lots_whole || self.value() > MAX_VALUE
    }

    /// C. A legal price is above the ceiling exactly where it is above 130% of the
    /// base, and below the floor where it is below 70%.
    fn is_outside_range(&self) -> bool {
        let (price, close) = (self.order[LIMIT_PRICE], self.security[PRIOR_CLOSE]);
        if self.order[BOARD] != MAIN_BOARD || self.security[FREE] == 1 || close == 0 {
            return false;
        }
        if close < 1_00 {
            return price > 2 * close;
        }
        let (base, parts) = self.base();
        let tenfold = 10 * parts * u64::from(price);
        // "both are at least 1": 0.01 is never above the ceiling.
        tenfold < 7 * base || tenfold > 13 * base && price > 1
    }

    /// "kept as two whole numbers": numerator and denominator.
    fn base(&self) -> (u64, u64) {
        let [dividend, subscription, old, new] = figures(self.security).map(u64::from);
        let close = u64::from(self.security[PRIOR_CLOSE]);
        let adjusted = (close - dividend) * old + subscription * new;
        // Not so without figures: both sides are 0.
        if adjusted < close * (old + new) {
            (adjusted, old + new)
        } else {
            (close, 1)
        }
    }

    /// Q
    fn is_beyond_half(&self) -> bool {
        let ipo = self.security[FIRST_DAY] * self.security[IPO];
        let reference = or(self.quote(PROJECTED), or(self.last_sale(), ipo));
        self.is_free_and_beyond(reference, 50, 150)
    }

    /// Q and warn 30, between two percentages of their reference.
    fn is_free_and_beyond(&self, reference: u32, low: u64, high: u64) -> bool {
        let (price, whole) = (u64::from(self.order[LIMIT_PRICE]), u64::from(reference));
        let is_beyond = 100 * price < low * whole || 100 * price > high * whole;
        self.security[FREE] == 1 && reference != 0 && is_beyond
    }

    /// W
    fn meets_own(&self) -> bool {
        self.rows.iter().any(|row| {
            row[SECURITY] == self.order[SECURITY]
                && row[BOARD] == self.order[BOARD]
                && row[SIDE] != self.order[SIDE]
                && row[MARK] == OPEN
                && self.meets(row)
        })
    }

    fn meets(&self, row: &Row) -> bool {
        let projected = self.quote(PROJECTED);
        let is_projected = self.session != OPEN_SESSION && projected != 0;
        match (self.order[TYPE], row[TYPE]) {
            (LIMIT, LIMIT) => reaches(self.order, row[LIMIT_PRICE]),
            (LIMIT, ATO | ATC) => is_projected && reaches(self.order, projected),
            (ATO | ATC, LIMIT) => is_projected && reaches(row, projected),
            (ATO | ATC, ATO | ATC) => true,
            (MP, LIMIT) => self.best_opposite() == row[LIMIT_PRICE],
            // "W compares with such a row only once it is a limit."
            _ => false,
        }
    }

    /// P
    fn is_repeat(&self) -> bool {
        let is_like = |row: &Row| {
            row[MARK] == CANCELLED
                && is_open_or_in_minute(row, self.clock)
                && row[SECURITY] == self.order[SECURITY]
                && row[BOARD] == self.order[BOARD]
                && row[SIDE] == self.order[SIDE]
                && row[LIMIT_PRICE] == self.order[LIMIT_PRICE]
                && row[VOLUME] <= 2 * self.order[VOLUME]
        };
        self.channel == ONLINE && self.value() >= REPEAT_VALUE && self.rows.iter().any(is_like)
    }

    /// Warn 10
    fn is_far(&self) -> bool {
        let close = self.security[PRIOR_CLOSE];
        let reference = or(self.quote(PROJECTED), or(self.quote(LAST_SALE), close));
        if self.order[BOARD] != MAIN_BOARD || self.channel == FRONT_OFFICE || reference == 0 {
            return false;
        }
        // "counts up from the lower and down from the upper position"
        let (lower, upper) = positions(reference);
        let (own, _) = positions(self.order[LIMIT_PRICE]);
        own > lower + 10 || own + 10 < upper
    }

    fn value(&self) -> u64 {
        u64::from(self.order[LIMIT_PRICE]) * u64::from(self.order[VOLUME])
    }

    /// A price of the order's board.
    fn quote(&self, place: usize) -> u32 {
        self.security[board_start(self.order[BOARD]) + place]
    }

    /// On the foreign board else the main board's.
    fn last_sale(&self) -> u32 {
        or(self.quote(LAST_SALE), self.security[MAIN + LAST_SALE])
    }

    fn best_opposite(&self) -> u32 {
        self.quote(if self.order[SIDE] == BUY { OFFER } else { BID })
    }
}

/// The other price where the first is absent.
fn or(price: u32, other: u32) -> u32 {
    if price != 0 { price } else { other }
}

/// A limit buy at or above the price, a limit sell at or below it.
fn reaches(limit: &Row, price: u32) -> bool {
    match limit[SIDE] {
        BUY => limit[LIMIT_PRICE] >= price,
        _ => limit[LIMIT_PRICE] <= price,
    }
}
