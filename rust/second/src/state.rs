//! The lent state: a slice of 32-bit words holding a header, then the
//! security records, then the desks.
//!
//! Records are read into typed values. Reading gives `None` exactly where the
//! paper calls the record not sound, so whoever holds a value holds a sound one.

use std::ops::{Range, RangeInclusive};

use crate::codes::{Board, OrderType, Session, Side, flag, is_lot};
use crate::ladder;

pub const CUSTOMERS: RangeInclusive<u32> = 1..=256;
pub const SECURITIES: RangeInclusive<u32> = 1..=1_024;

pub const HEADER_WORDS: usize = 4;
pub const SECURITY_WORDS: usize = 17;
pub const COUNTER_WORDS: usize = 3;
pub const ROW_WORDS: usize = 9;
/// How many rows a desk has.
pub const ROWS: usize = 32;
pub const DESK_WORDS: usize = COUNTER_WORDS + ROWS * ROW_WORDS;

/// The last millisecond of the day.
pub const LAST_TIME: u32 = 86_399_999;
/// IPO prices need not be on the ladder, but end where it does.
pub const MAX_IPO: u32 = 10_000_000;
/// Nor need prior closes, which the exchange adjusts when a right has gone.
pub const MAX_PRIOR_CLOSE: u32 = 10_000_000;
/// The largest volume of an order.
pub const MAX_VOLUME: u32 = 20_000_000;
/// How long a cancel is remembered, in milliseconds.
pub const CANCEL_MEMORY: u32 = 60_000;
/// The lot of every security in a fresh state.
pub const FRESH_LOT: u32 = 100;

/// How many words a state has; `None` if a count is out of range.
pub fn word_count(customers: u32, securities: u32) -> Option<usize> {
    (CUSTOMERS.contains(&customers) && SECURITIES.contains(&securities))
        .then(|| desks_start(securities) + DESK_WORDS * customers as usize)
}

fn desks_start(securities: u32) -> usize {
    HEADER_WORDS + SECURITY_WORDS * securities as usize
}

/// A price word as a price, if it is not absent.
pub fn present(price: u32) -> Option<u32> {
    (price != 0).then_some(price)
}

/// Absent or on the ladder.
pub fn is_market_price(price: u32) -> bool {
    price == 0 || ladder::legal(price)
}

#[derive(Clone, Copy, Debug, PartialEq, Eq)]
pub struct Header {
    pub customers: u32,
    pub securities: u32,
    pub clock: u32,
    pub session: Session,
}

impl Header {
    /// The header of a whole state; `None` if its words, or the count of all
    /// words, are not as the paper says.
    pub fn read(words: &[u32]) -> Option<Header> {
        let &[customers, securities, clock, session, ..] = words else {
            return None;
        };
        if word_count(customers, securities) != Some(words.len()) || clock > LAST_TIME {
            return None;
        }
        Some(Header {
            customers,
            securities,
            clock,
            session: Session::from_code(session)?,
        })
    }

    pub fn write(&self, words: &mut [u32]) {
        words[..HEADER_WORDS].copy_from_slice(&[
            self.customers,
            self.securities,
            self.clock,
            self.session.code(),
        ]);
    }

    /// Where a security's words stand; `None` if there is no such security.
    pub fn security_place(&self, security: u32) -> Option<Range<usize>> {
        (security < self.securities).then(|| {
            let start = HEADER_WORDS + SECURITY_WORDS * security as usize;
            start..start + SECURITY_WORDS
        })
    }

    /// Where a customer's desk stands; `None` if there is no such customer.
    pub fn desk_place(&self, customer: u32) -> Option<Range<usize>> {
        (customer < self.customers).then(|| {
            let start = desks_start(self.securities) + DESK_WORDS * customer as usize;
            start..start + DESK_WORDS
        })
    }

    /// Where all security records stand.
    pub fn securities_place(&self) -> Range<usize> {
        HEADER_WORDS..desks_start(self.securities)
    }

    /// Where all desks stand.
    pub fn desks_place(&self) -> Range<usize> {
        let start = desks_start(self.securities);
        start..start + DESK_WORDS * self.customers as usize
    }
}

/// The four prices of one board, each 0 if absent.
#[derive(Clone, Copy, Debug, PartialEq, Eq)]
pub struct Quotes {
    pub projected: u32,
    pub last: u32,
    pub bid: u32,
    pub offer: u32,
}

/// What kind 9 sets: the dividend and the subscription price in satang, and how
/// many new shares are subscribed for so many old ones.
#[derive(Clone, Copy, Debug, PartialEq, Eq)]
pub struct Figures {
    pub dividend: u32,
    pub subscription: u32,
    pub old: u16,
    pub new: u16,
}

impl Figures {
    /// Could kind 9 set them beside this prior close? Paper 02, request 3, turns
    /// it away "if old is 0 or the dividend is not below the prior close".
    pub fn fit(&self, prior_close: u32) -> bool {
        self.old > 0 && self.dividend < prior_close
    }

    /// The outer `None` if the words are not sound beside this prior close, the
    /// inner one if they are all zero: there are no figures.
    fn read(words: [u32; 4], prior_close: u32) -> Option<Option<Figures>> {
        if words == [0; 4] {
            return Some(None);
        }
        let [dividend, subscription, old, new] = words;
        let figures = Figures {
            dividend,
            subscription,
            old: old.try_into().ok()?,
            new: new.try_into().ok()?,
        };
        figures.fit(prior_close).then_some(Some(figures))
    }

    /// In the order in which the record has them.
    pub fn words(&self) -> [u32; 4] {
        [
            self.dividend,
            self.subscription,
            self.old.into(),
            self.new.into(),
        ]
    }
}

#[derive(Clone, Copy, Debug, PartialEq, Eq)]
pub struct Security {
    pub lot: u32,
    /// No ceiling and floor.
    pub free: bool,
    pub first_day: bool,
    pub prior_close: u32,
    pub ipo: u32,
    pub main: Quotes,
    pub foreign: Quotes,
    pub figures: Option<Figures>,
}

impl Security {
    /// `None` if the record is not sound.
    pub fn read(words: &[u32]) -> Option<Security> {
        let (words, &figures) = words.split_last_chunk()?;
        let &[lot, free, first_day, prior_close, ipo, ref quotes @ ..] = words else {
            return None;
        };
        let &[p, l, b, o, foreign_p, foreign_l, foreign_b, foreign_o] = quotes else {
            return None;
        };
        let prices_sound = prior_close <= MAX_PRIOR_CLOSE
            && ipo <= MAX_IPO
            && quotes.iter().all(|&price| is_market_price(price));
        if !is_lot(lot) || !prices_sound {
            return None;
        }
        Some(Security {
            lot,
            free: flag(free)?,
            first_day: flag(first_day)?,
            prior_close,
            ipo,
            main: Quotes {
                projected: p,
                last: l,
                bid: b,
                offer: o,
            },
            foreign: Quotes {
                projected: foreign_p,
                last: foreign_l,
                bid: foreign_b,
                offer: foreign_o,
            },
            figures: Figures::read(figures, prior_close)?,
        })
    }

    pub fn is_sound(words: &[u32]) -> bool {
        Security::read(words).is_some()
    }

    pub fn write(&self, words: &mut [u32]) {
        let [dividend, subscription, old, new] =
            self.figures.map_or([0; 4], |figures| figures.words());
        words.copy_from_slice(&[
            self.lot,
            u32::from(self.free),
            u32::from(self.first_day),
            self.prior_close,
            self.ipo,
            self.main.projected,
            self.main.last,
            self.main.bid,
            self.main.offer,
            self.foreign.projected,
            self.foreign.last,
            self.foreign.bid,
            self.foreign.offer,
            dividend,
            subscription,
            old,
            new,
        ]);
    }

    pub fn quotes(&self, board: Board) -> &Quotes {
        match board {
            Board::Main => &self.main,
            Board::Foreign => &self.foreign,
        }
    }

    pub fn quotes_mut(&mut self, board: Board) -> &mut Quotes {
        match board {
            Board::Main => &mut self.main,
            Board::Foreign => &mut self.foreign,
        }
    }
}

/// The mark of a row that is not free, with its cancel time.
#[derive(Clone, Copy, Debug, PartialEq, Eq)]
pub enum Mark {
    Open,
    Cancelled { at: u32 },
}

/// A marked row. Free rows have no value: they are all zero.
#[derive(Clone, Copy, Debug, PartialEq, Eq)]
pub struct Row {
    pub mark: Mark,
    pub number: u32,
    pub security: u32,
    pub board: Board,
    pub side: Side,
    pub order_type: OrderType,
    pub price: u32,
    pub volume: u32,
}

impl Row {
    /// What stands in the unused places of a desk's array; never looked at.
    const UNUSED: Row = Row {
        mark: Mark::Open,
        number: 0,
        security: 0,
        board: Board::Main,
        side: Side::Buy,
        order_type: OrderType::Limit,
        price: 0,
        volume: 0,
    };

    /// `None` if this is no sound marked row, whatever the rows beside it.
    fn read(words: &[u32], securities: u32, clock: u32) -> Option<Row> {
        let &[
            mark,
            number,
            security,
            board,
            side,
            order_type,
            price,
            volume,
            cancel_time,
        ] = words
        else {
            return None;
        };
        let row = Row {
            mark: match mark {
                1 if cancel_time == 0 => Mark::Open,
                2 if cancel_time <= clock => Mark::Cancelled { at: cancel_time },
                _ => return None,
            },
            number,
            security,
            board: Board::from_code(board)?,
            side: Side::from_code(side)?,
            order_type: OrderType::from_code(order_type)?,
            price,
            volume,
        };
        let type_sound = match row.order_type {
            OrderType::Limit => ladder::legal(price),
            OrderType::Ato | OrderType::Atc | OrderType::Mp => price == 0 && row.is_open(),
        };
        let sound =
            type_sound && number > 0 && security < securities && (1..=MAX_VOLUME).contains(&volume);
        sound.then_some(row)
    }

    fn write(&self, words: &mut [u32]) {
        let (mark, cancel_time) = match self.mark {
            Mark::Open => (1, 0),
            Mark::Cancelled { at } => (2, at),
        };
        words.copy_from_slice(&[
            mark,
            self.number,
            self.security,
            self.board.code(),
            self.side.code(),
            self.order_type.code(),
            self.price,
            self.volume,
            cancel_time,
        ]);
    }

    pub fn is_open(&self) -> bool {
        self.mark == Mark::Open
    }

    /// Cancelled at most 60,000 ms ago.
    pub fn is_lately_cancelled(&self, clock: u32) -> bool {
        match self.mark {
            Mark::Open => false,
            // Saturating only to be total: a sound row's time is not after the clock.
            Mark::Cancelled { at } => clock.saturating_sub(at) <= CANCEL_MEMORY,
        }
    }

    /// Open, or cancelled so lately that it still counts.
    pub fn is_live(&self, clock: u32) -> bool {
        self.is_open() || self.is_lately_cancelled(clock)
    }
}

/// One customer's counters and rows, taken out and put back as one record.
#[derive(Clone, Copy, Debug)]
pub struct Desk {
    pub accepted: u32,
    pub warned: u32,
    pub rejected: u32,
    rows: [Row; ROWS],
    marked: usize,
}

impl Desk {
    /// `None` if the record is not sound in a state of so many securities at
    /// this clock.
    pub fn read(words: &[u32], securities: u32, clock: u32) -> Option<Desk> {
        let &[accepted, warned, rejected, ref row_words @ ..] = words else {
            return None;
        };
        if row_words.len() != ROWS * ROW_WORDS {
            return None;
        }
        let mut desk = Desk {
            accepted,
            warned,
            rejected,
            rows: [Row::UNUSED; ROWS],
            marked: 0,
        };
        for (index, words) in row_words.chunks_exact(ROW_WORDS).enumerate() {
            if words[0] == 0 {
                // From the first free row on, everything is zero.
                let free = &row_words[index * ROW_WORDS..];
                return free.iter().all(|&word| word == 0).then_some(desk);
            }
            let row = Row::read(words, securities, clock)?;
            if desk.rows().iter().any(|other| other.number == row.number) {
                return None;
            }
            desk.rows[index] = row;
            desk.marked = index + 1;
        }
        Some(desk)
    }

    pub fn is_sound(words: &[u32], securities: u32, clock: u32) -> bool {
        Desk::read(words, securities, clock).is_some()
    }

    pub fn write(&self, words: &mut [u32]) {
        let (counters, row_words) = words.split_at_mut(COUNTER_WORDS);
        counters.copy_from_slice(&[self.accepted, self.warned, self.rejected]);
        let (marked, free) = row_words.split_at_mut(self.marked * ROW_WORDS);
        for (row, words) in self.rows().iter().zip(marked.chunks_exact_mut(ROW_WORDS)) {
            row.write(words);
        }
        free.fill(0);
    }

    /// The marked rows, in order of acceptance.
    pub fn rows(&self) -> &[Row] {
        &self.rows[..self.marked]
    }

    /// How many rows are open or cancelled at most 60,000 ms ago.
    pub fn live_rows(&self, clock: u32) -> usize {
        self.rows().iter().filter(|row| row.is_live(clock)).count()
    }

    /// Is the number that of an open row, or of one cancelled at most
    /// 60,000 ms ago?
    pub fn is_number_taken(&self, number: u32, clock: u32) -> bool {
        self.rows()
            .iter()
            .any(|row| row.number == number && row.is_live(clock))
    }

    /// The place of the open row with this number.
    pub fn find_open(&self, number: u32) -> Option<usize> {
        self.rows()
            .iter()
            .position(|row| row.is_open() && row.number == number)
    }

    pub fn row_mut(&mut self, index: usize) -> &mut Row {
        &mut self.rows[..self.marked][index]
    }

    /// Removes one row; those after it close up.
    pub fn remove(&mut self, index: usize) {
        self.rows.copy_within(index + 1..self.marked, index);
        self.marked -= 1;
    }

    /// Keeps the rows that `keep` says; they close up in their order.
    fn retain(&mut self, keep: impl Fn(&Row) -> bool) {
        let mut kept = 0;
        for index in 0..self.marked {
            let row = self.rows[index];
            if keep(&row) {
                self.rows[kept] = row;
                kept += 1;
            }
        }
        self.marked = kept;
    }

    /// What a session change leaves: no ATO, ATC or MP row.
    pub fn keep_limits(&mut self) {
        self.retain(|row| row.order_type == OrderType::Limit);
    }

    /// Removes the rows cancelled more than 60,000 ms ago, then adds one last.
    /// There must be room: fewer than 32 live rows.
    pub fn admit(&mut self, row: Row, clock: u32) {
        self.retain(|row| row.is_live(clock));
        self.rows[self.marked] = row;
        self.marked += 1;
    }
}
