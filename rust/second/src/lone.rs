//! The lone run of one customer, and to whom an event belongs.
//!
//! It is written apart from the gate, from the paper's section "The lone run":
//! it reads bytes, keeps rows and judges orders by code of its own. Only the
//! ladder and the answers are shared.

use crate::answer::{Answer, Rule};
use crate::ladder;

#[derive(Clone, Copy, Debug, PartialEq, Eq)]
pub enum Owner {
    Market,
    Customer(u32),
    Nobody,
}

/// To whom an event belongs in a state of so many customers.
pub fn belongs(event: &[u8], customers: u32) -> Owner {
    match kind_of(event) {
        Err(_) => Owner::Nobody,
        Ok(1..=4 | 9) => Owner::Market,
        Ok(_) => {
            let customer = field(event, 1, 2);
            if customer < customers {
                Owner::Customer(customer)
            } else {
                Owner::Nobody
            }
        }
    }
}

/// The kind of a whole event, or the refusal that its bytes get.
fn kind_of(event: &[u8]) -> Result<u8, Answer> {
    const LENGTHS: [usize; 9] = [5, 2, 14, 20, 21, 7, 11, 11, 15];
    match event {
        [] => Err(Answer::Refused(2)),
        [kind @ 1..=9, ..] if LENGTHS[usize::from(kind - 1)] == event.len() => Ok(*kind),
        [1..=9, ..] => Err(Answer::Refused(2)),
        _ => Err(Answer::Refused(3)),
    }
}

/// A little-endian field of an event, by its first byte and its width.
fn field(event: &[u8], first: usize, width: usize) -> u32 {
    event[first..first + width]
        .iter()
        .rev()
        .fold(0, |value, &byte| value << 8 | u32::from(byte))
}

// Codes, as the paper lists them.
const PRE_OPEN: u32 = 1;
const OPEN: u32 = 2;
const PRE_CLOSE: u32 = 4;
const MAIN: u32 = 0;
const FOREIGN: u32 = 1;
const BUY: u32 = 0;
const SELL: u32 = 1;
const LIMIT: u32 = 0;
const ATO: u32 = 1;
const ATC: u32 = 2;
const MP: u32 = 3;
const ONLINE: u32 = 1;
const DMA: u32 = 2;

const MINUTE: u32 = 60_000;

#[derive(Clone, Debug)]
struct Listed {
    lot: u32,
    free: u32,
    first_day: u32,
    prior_close: u32,
    ipo: u32,
    /// Main board, then foreign board.
    boards: [Board; 2],
    right: Right,
}

/// The figures of kind 9; all zero without them.
#[derive(Clone, Copy, Debug, Default)]
struct Right {
    dividend: u32,
    subscription: u32,
    old: u32,
    new: u32,
}

#[derive(Clone, Copy, Debug, Default)]
struct Board {
    projected: u32,
    last: u32,
    bid: u32,
    offer: u32,
}

#[derive(Clone, Copy, Debug)]
struct Ticket {
    number: u32,
    security: u32,
    board: u32,
    side: u32,
    order_type: u32,
    channel: u32,
    price: u32,
    volume: u32,
}

#[derive(Clone, Debug)]
struct Standing {
    /// The time of the cancel; `None` while the row is open.
    cancelled: Option<u32>,
    number: u32,
    security: u32,
    board: u32,
    side: u32,
    order_type: u32,
    price: u32,
    volume: u32,
}

/// The market's words and one customer's desk.
#[derive(Clone, Debug)]
pub struct LoneRun {
    customers: u32,
    customer: u32,
    clock: u32,
    session: u32,
    listed: Vec<Listed>,
    accepted: u32,
    warned: u32,
    rejected: u32,
    rows: Vec<Standing>,
}

impl LoneRun {
    /// The lone run of customer `k` before its first event.
    ///
    /// # Panics
    /// If the counts are out of the paper's range or `k` is not below `customers`.
    pub fn new(customers: u32, securities: u32, k: u32) -> Self {
        assert!((1..=256).contains(&customers), "1 to 256 customers");
        assert!((1..=1_024).contains(&securities), "1 to 1,024 securities");
        assert!(k < customers, "customer k is below C");
        let fresh = Listed {
            lot: 100,
            free: 0,
            first_day: 0,
            prior_close: 0,
            ipo: 0,
            boards: [Board::default(); 2],
            right: Right::default(),
        };
        LoneRun {
            customers,
            customer: k,
            clock: 0,
            session: 0,
            listed: vec![fresh; securities as usize],
            accepted: 0,
            warned: 0,
            rejected: 0,
            rows: Vec::with_capacity(32),
        }
    }

    /// Handles a market event or one of the customer's own.
    ///
    /// # Panics
    /// If the event belongs to another customer: such events are never fed here.
    pub fn handle(&mut self, event: &[u8]) -> Answer {
        let done = match kind_of(event) {
            Err(refused) => return refused,
            Ok(1) => self.clock(event),
            Ok(2) => self.session(event),
            Ok(3) => self.setup(event),
            Ok(4) => self.prices(event),
            Ok(5) => self.order(event),
            Ok(6) => self.cancel(event),
            Ok(7) => self.match_report(event),
            Ok(8) => self.rest(event),
            Ok(_) => self.right(event),
        };
        done.unwrap_or_else(Answer::Refused)
    }

    /// Header and security records, in the layout of the state.
    pub fn market_words(&self) -> Vec<u32> {
        let header = [
            self.customers,
            self.listed.len() as u32,
            self.clock,
            self.session,
        ];
        let mut words = header.to_vec();
        for s in &self.listed {
            words.extend([s.lot, s.free, s.first_day, s.prior_close, s.ipo]);
            for b in &s.boards {
                words.extend([b.projected, b.last, b.bid, b.offer]);
            }
            let r = &s.right;
            words.extend([r.dividend, r.subscription, r.old, r.new]);
        }
        words
    }

    /// The customer's desk, in the layout of the state.
    pub fn desk_words(&self) -> Vec<u32> {
        let mut words = vec![self.accepted, self.warned, self.rejected];
        for row in &self.rows {
            words.extend([
                if row.cancelled.is_some() { 2 } else { 1 },
                row.number,
                row.security,
                row.board,
                row.side,
                row.order_type,
                row.price,
                row.volume,
                row.cancelled.unwrap_or(0),
            ]);
        }
        words.resize(291, 0);
        words
    }

    fn clock(&mut self, event: &[u8]) -> Result<Answer, u8> {
        let time = field(event, 1, 4);
        refuse_if(time > 86_399_999, 5)?;
        refuse_if(time < self.clock, 7)?;
        self.clock = time;
        Ok(Answer::Ok)
    }

    fn session(&mut self, event: &[u8]) -> Result<Answer, u8> {
        let session = field(event, 1, 1);
        refuse_if(session > 4, 5)?;
        if session != self.session {
            self.session = session;
            for board in self.listed.iter_mut().flat_map(|s| &mut s.boards) {
                board.projected = 0;
            }
            self.rows
                .retain(|row| ![ATO, ATC, MP].contains(&row.order_type));
        }
        Ok(Answer::Ok)
    }

    fn setup(&mut self, event: &[u8]) -> Result<Answer, u8> {
        let security = field(event, 1, 2) as usize;
        let [lot, free, first_day] = [3, 4, 5].map(|at| field(event, at, 1));
        let [prior_close, ipo] = [6, 10].map(|at| field(event, at, 4));
        refuse_if(security >= self.listed.len(), 4)?;
        refuse_if(![1, 50, 100].contains(&lot) || free > 1 || first_day > 1, 5)?;
        refuse_if(prior_close > 10_000_000 || ipo > 10_000_000, 6)?;
        let boards = self.listed[security].boards;
        self.listed[security] = Listed {
            lot,
            free,
            first_day,
            prior_close,
            ipo,
            boards,
            right: Right::default(),
        };
        Ok(Answer::Ok)
    }

    fn prices(&mut self, event: &[u8]) -> Result<Answer, u8> {
        let security = field(event, 1, 2) as usize;
        let board = field(event, 3, 1);
        let prices = [4, 8, 12, 16].map(|at| field(event, at, 4));
        refuse_if(security >= self.listed.len(), 4)?;
        refuse_if(board > 1, 5)?;
        refuse_if(prices.into_iter().any(off_market), 6)?;
        let [projected, last, bid, offer] = prices;
        self.listed[security].boards[board as usize] = Board {
            projected,
            last,
            bid,
            offer,
        };
        Ok(Answer::Ok)
    }

    fn order(&mut self, event: &[u8]) -> Result<Answer, u8> {
        self.own(event)?;
        let ticket = Ticket {
            number: field(event, 3, 4),
            security: field(event, 7, 2),
            board: field(event, 9, 1),
            side: field(event, 10, 1),
            order_type: field(event, 11, 1),
            channel: field(event, 12, 1),
            price: field(event, 13, 4),
            volume: field(event, 17, 4),
        };
        refuse_if(ticket.security as usize >= self.listed.len(), 4)?;
        refuse_if(
            ticket.board > FOREIGN
                || ticket.side > SELL
                || ticket.order_type > MP
                || ticket.channel > DMA
                || ticket.number == 0,
            5,
        )?;
        if ticket.order_type == LIMIT {
            refuse_if(!ladder::legal(ticket.price), 6)?;
        } else {
            refuse_if(ticket.price != 0, 6)?;
        }
        let remembered = |row: &Standing| !self.is_forgotten(row);
        refuse_if(
            self.rows
                .iter()
                .any(|row| row.number == ticket.number && remembered(row)),
            9,
        )?;

        let verdict = self.verdict(&ticket);
        let is_rejected = matches!(verdict, Answer::Reject(_));
        if !is_rejected {
            refuse_if(
                self.rows.iter().filter(|row| remembered(row)).count() == 32,
                12,
            )?;
            let clock = self.clock;
            self.rows
                .retain(|row| row.cancelled.is_none_or(|at| clock - at <= MINUTE));
            self.rows.push(Standing {
                cancelled: None,
                number: ticket.number,
                security: ticket.security,
                board: ticket.board,
                side: ticket.side,
                order_type: ticket.order_type,
                price: ticket.price,
                volume: ticket.volume,
            });
        }
        let counter = match verdict {
            Answer::Accept => &mut self.accepted,
            Answer::Reject(_) => &mut self.rejected,
            _ => &mut self.warned,
        };
        *counter = counter.saturating_add(1);
        Ok(verdict)
    }

    fn cancel(&mut self, event: &[u8]) -> Result<Answer, u8> {
        self.own(event)?;
        let place = self.open_row(field(event, 3, 4))?;
        if self.rows[place].order_type == LIMIT {
            self.rows[place].cancelled = Some(self.clock);
        } else {
            self.rows.remove(place);
        }
        Ok(Answer::Ok)
    }

    fn match_report(&mut self, event: &[u8]) -> Result<Answer, u8> {
        self.own(event)?;
        let place = self.open_row(field(event, 3, 4))?;
        let volume = field(event, 7, 4);
        refuse_if(volume == 0 || volume > self.rows[place].volume, 11)?;
        self.rows[place].volume -= volume;
        if self.rows[place].volume == 0 {
            self.rows.remove(place);
        }
        Ok(Answer::Ok)
    }

    /// Kind 8: what is left of an MP order is a limit now.
    fn rest(&mut self, event: &[u8]) -> Result<Answer, u8> {
        self.own(event)?;
        let number = field(event, 3, 4);
        let price = field(event, 7, 4);
        refuse_if(number == 0, 5)?;
        refuse_if(!ladder::legal(price), 6)?;
        let place = self.open_row(number)?;
        refuse_if(self.rows[place].order_type != MP, 10)?;
        self.rows[place].order_type = LIMIT;
        self.rows[place].price = price;
        Ok(Answer::Ok)
    }

    /// Kind 9: what a right that has gone takes from the prior close.
    fn right(&mut self, event: &[u8]) -> Result<Answer, u8> {
        let security = field(event, 1, 2) as usize;
        refuse_if(security >= self.listed.len(), 4)?;
        let listed = &mut self.listed[security];
        let right = Right {
            dividend: field(event, 3, 4),
            subscription: field(event, 7, 4),
            old: field(event, 11, 2),
            new: field(event, 13, 2),
        };
        refuse_if(right.old == 0 || right.dividend >= listed.prior_close, 13)?;
        listed.right = right;
        Ok(Answer::Ok)
    }

    /// Condition 4 for the customer that an event names.
    fn own(&self, event: &[u8]) -> Result<(), u8> {
        let customer = field(event, 1, 2);
        refuse_if(customer >= self.customers, 4)?;
        assert_eq!(customer, self.customer, "fed with another customer's event");
        Ok(())
    }

    /// Conditions 5 and 10 of an event that names a row.
    fn open_row(&self, number: u32) -> Result<usize, u8> {
        refuse_if(number == 0, 5)?;
        self.rows
            .iter()
            .position(|row| row.cancelled.is_none() && row.number == number)
            .ok_or(10)
    }

    /// Cancelled more than 60,000 ms ago.
    fn is_forgotten(&self, row: &Standing) -> bool {
        row.cancelled.is_some_and(|at| self.clock - at > MINUTE)
    }

    fn verdict(&self, ticket: &Ticket) -> Answer {
        let security = &self.listed[ticket.security as usize];
        let rejections = [
            (Rule::S, self.session_shuts(ticket, security)),
            (Rule::V, bad_volume(ticket, security)),
            (Rule::C, outside_range(ticket, security)),
            (Rule::Q, self.outside_half(ticket, security)),
            (Rule::W, self.meets_own_order(ticket, security)),
            (Rule::P, self.repeats_a_cancel(ticket)),
        ];
        if let Some((rule, _)) = rejections.into_iter().find(|(_, applies)| *applies) {
            Answer::Reject(rule)
        } else if self.outside_thirty(ticket, security) {
            Answer::Warn30
        } else if self.outside_ten(ticket, security) {
            Answer::Warn10
        } else {
            Answer::Accept
        }
    }

    fn in_call(&self) -> bool {
        self.session == PRE_OPEN || self.session == PRE_CLOSE
    }

    fn session_shuts(&self, ticket: &Ticket, security: &Listed) -> bool {
        let board = &security.boards[ticket.board as usize];
        let opposite = [board.offer, board.bid][ticket.side as usize];
        match (self.session, ticket.order_type) {
            (PRE_OPEN, LIMIT | ATO) | (OPEN, LIMIT) | (PRE_CLOSE, LIMIT | ATC) => false,
            (OPEN, MP) => opposite == 0,
            _ => true,
        }
    }

    fn outside_half(&self, ticket: &Ticket, security: &Listed) -> bool {
        if ticket.order_type != LIMIT || !self.in_call() || security.free == 0 {
            return false;
        }
        let own = &security.boards[ticket.board as usize];
        let main_last = security.boards[0].last;
        let candidates = [
            own.projected,
            own.last,
            if ticket.board == FOREIGN {
                main_last
            } else {
                0
            },
            if security.first_day == 1 {
                security.ipo
            } else {
                0
            },
        ];
        match candidates.into_iter().find(|&price| price != 0) {
            Some(reference) => {
                let twice = 2 * ticket.price;
                twice > 3 * reference || twice < reference
            }
            None => false,
        }
    }

    /// Rule W, sentence by sentence.
    fn meets_own_order(&self, ticket: &Ticket, security: &Listed) -> bool {
        if ticket.channel != ONLINE {
            return false;
        }
        let board = &security.boards[ticket.board as usize];
        let projected = if self.in_call() { board.projected } else { 0 };
        // A row of type 3 has no price yet, and no sentence of W names it.
        let opposite = |row: &&Standing| {
            row.cancelled.is_none()
                && row.order_type != MP
                && row.security == ticket.security
                && row.board == ticket.board
                && row.side == 1 - ticket.side
        };
        let at_auction = |order_type: u32| order_type == ATO || order_type == ATC;
        let buys = ticket.side == BUY;
        for row in self.rows.iter().filter(opposite) {
            let row_limit = row.order_type == LIMIT;
            let meets = match ticket.order_type {
                LIMIT if row_limit && buys => ticket.price >= row.price,
                LIMIT if row_limit => ticket.price <= row.price,
                LIMIT if projected == 0 => false,
                LIMIT if buys => ticket.price >= projected,
                LIMIT => ticket.price <= projected,
                MP if buys => row_limit && board.offer == row.price,
                MP => row_limit && board.bid == row.price,
                // ATO or ATC.
                _ if at_auction(row.order_type) => true,
                _ if projected == 0 => false,
                _ if buys => row.price <= projected,
                _ => row.price >= projected,
            };
            if meets {
                return true;
            }
        }
        false
    }

    fn repeats_a_cancel(&self, ticket: &Ticket) -> bool {
        if ticket.order_type != LIMIT
            || ticket.channel != ONLINE
            || self.session != OPEN
            || value(ticket) < 300_000_000
        {
            return false;
        }
        self.rows.iter().any(|row| {
            row.cancelled.is_some_and(|at| self.clock <= at + MINUTE)
                && (row.security, row.board, row.side, row.price)
                    == (ticket.security, ticket.board, ticket.side, ticket.price)
                && u64::from(row.volume) <= u64::from(ticket.volume) * 2
        })
    }

    fn outside_thirty(&self, ticket: &Ticket, security: &Listed) -> bool {
        let own = security.boards[ticket.board as usize].last;
        let last = if own == 0 && ticket.board == FOREIGN {
            security.boards[0].last
        } else {
            own
        };
        ticket.order_type == LIMIT
            && self.session == OPEN
            && security.free == 1
            && last != 0
            && !(7 * last..=13 * last).contains(&(10 * ticket.price))
    }

    fn outside_ten(&self, ticket: &Ticket, security: &Listed) -> bool {
        let main = &security.boards[0];
        let reference = [main.projected, main.last, security.prior_close]
            .into_iter()
            .find(|&price| price != 0);
        ticket.order_type == LIMIT
            && ticket.board == MAIN
            && self.in_call()
            && (ticket.channel == ONLINE || ticket.channel == DMA)
            && reference.is_some_and(|reference| {
                let near = ladder::nearest(reference).expect("no price is above 10,000,000");
                // Down from the upper position and up from the lower.
                let lowest = ladder::price(near.upper.saturating_sub(10));
                let highest = ladder::price(near.lower + 10);
                ticket.price < lowest.unwrap_or(ladder::FIRST_PRICE)
                    || ticket.price > highest.unwrap_or(ladder::LAST_PRICE)
            })
    }
}

fn refuse_if(condition: bool, number: u8) -> Result<(), u8> {
    if condition { Err(number) } else { Ok(()) }
}

/// Neither absent nor on the ladder.
fn off_market(price: u32) -> bool {
    price != 0 && !ladder::legal(price)
}

/// In satang.
fn value(ticket: &Ticket) -> u64 {
    u64::from(ticket.price) * u64::from(ticket.volume)
}

fn bad_volume(ticket: &Ticket, security: &Listed) -> bool {
    ticket.volume == 0
        || ticket.volume > 20_000_000
        || !ticket.volume.is_multiple_of(security.lot)
        || ticket.order_type == LIMIT && value(ticket) > 50_000_000_000
}

/// Rule C without a ceiling and a floor: no legal price lies between 130% of the
/// base and the ceiling, nor between the floor and 70%, so that the order's own
/// price, which is legal, is compared with the base. Only at 0.01 is the ceiling
/// above 130%.
fn outside_range(ticket: &Ticket, security: &Listed) -> bool {
    let close = u64::from(security.prior_close);
    let covered = ticket.order_type == LIMIT && ticket.board == MAIN;
    if !covered || security.free == 1 || close == 0 {
        return false;
    }
    let price = u64::from(ticket.price);
    if close < 100 {
        return price > 2 * close;
    }
    let r = &security.right;
    let [dividend, subscription, old, new] =
        [r.dividend, r.subscription, r.old, r.new].map(u64::from);
    let shares = old + new;
    // Base and price, both times the shares: every number here is below 2^49.
    let (base, price_of_shares) = match shares {
        0 => (close, price),
        _ => {
            let after_right = (close - dividend) * old + subscription * new;
            (after_right.min(close * shares), price * shares)
        }
    };
    let above = 10 * price_of_shares > 13 * base && price > 1;
    above || 10 * price_of_shares < 7 * base
}
