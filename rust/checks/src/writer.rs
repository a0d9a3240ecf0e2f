//! Writes random events that fit the state which they will meet. That state is
//! kept by the second implementation.

use second::codes::{Board, OrderType, Session};
use second::event::{Order, Prices, Setup};
use second::ladder::LAST_PRICE;
use second::state::{CANCEL_MEMORY, Desk, Header, LAST_TIME, Mark, Row, Security};
use second::{encode, gate};

use crate::figures::any_figures;
use crate::layout::fresh;
use crate::malformed::malformed;
use crate::mixture::{Kind, Mixture};
use crate::prices::{
    limit_price, market_price, middle, order_type, price_near, prior_close, repeated_volume, step,
    volume,
};
use crate::random::Random;

/// So often a bid and an offer are looked for.
const MOST_LOOKS: usize = 40;

pub struct Writer {
    random: Random,
    mixture: &'static Mixture,
    words: Vec<u32>,
    /// Those who take part.
    customers: Vec<u16>,
    /// Those that take part, with the position around which each trades.
    securities: Vec<(u16, u32)>,
}

impl Writer {
    /// Few take part even in a large state, so that they meet often: at most 5
    /// customers and 3 securities, the last of each among them.
    pub fn new(
        mut random: Random,
        mixture: &'static Mixture,
        customers: u32,
        securities: u32,
    ) -> Self {
        let some = |random: &mut Random, count: u32, most: u32| -> Vec<u16> {
            let taking_part = 1 + random.below(most);
            (0..taking_part)
                .map(|_| random.below(count) as u16)
                .chain([count as u16 - 1])
                .collect()
        };
        let customer_list = some(&mut random, customers, 4);
        let security_list = some(&mut random, securities, 2);
        let words = fresh(customers, securities);
        Writer::of_some(random, mixture, words, customer_list, security_list)
    }

    /// Every customer and every security of the state take part.
    pub fn of_all(
        random: Random,
        mixture: &'static Mixture,
        customers: u32,
        securities: u32,
    ) -> Self {
        let all = |count: u32| (0..count as u16).collect();
        let words = fresh(customers, securities);
        Writer::of_some(random, mixture, words, all(customers), all(securities))
    }

    fn of_some(
        mut random: Random,
        mixture: &'static Mixture,
        words: Vec<u32>,
        customers: Vec<u16>,
        securities: Vec<u16>,
    ) -> Self {
        Writer {
            customers,
            securities: securities
                .into_iter()
                .map(|security| (security, middle(&mut random)))
                .collect(),
            words,
            mixture,
            random,
        }
    }

    /// Those who take part.
    pub fn customers(&self) -> &[u16] {
        &self.customers
    }

    /// How many rows of a customer's desk are not free.
    pub fn rows(&self, customer: u16) -> usize {
        self.desk(customer).rows().len()
    }

    /// So many events, and before them in half of the histories some setups, by
    /// which a day begins. The first opens a session: in a closed one all orders
    /// get S.
    pub fn history(&mut self, length: usize) -> Vec<Vec<u8>> {
        let mut events = vec![self.new_session(self.mixture.sessions[0])];
        if self.random.once_in(2) {
            let setups = 2 * self.securities.len();
            events.extend((0..setups).map(|_| self.new_setup()));
        }
        for _ in 0..length {
            events.push(self.event());
        }
        events
    }

    pub fn event(&mut self) -> Vec<u8> {
        let event = self.written();
        self.keep(event)
    }

    pub fn new_session(&mut self, session: Session) -> Vec<u8> {
        self.keep(encode::session(session as u8))
    }

    pub fn new_setup(&mut self) -> Vec<u8> {
        let event = self.setup();
        self.keep(event)
    }

    pub fn new_figures(&mut self) -> Vec<u8> {
        let event = self.figures();
        self.keep(event)
    }

    pub fn new_prices(&mut self) -> Vec<u8> {
        let event = self.prices();
        self.keep(event)
    }

    /// An order that is mostly accepted: by the front office, of a few lots, near
    /// the market.
    pub fn plain_order(&mut self, customer: u16, order_type: OrderType) -> Vec<u8> {
        let (security, middle, board) = match order_type {
            OrderType::Mp => self.quoted(),
            _ => self.any_security(),
        };
        let record = self.security(security);
        let desk = self.desk(customer);
        let number = self.number(&desk);
        let random = &mut self.random;
        let price = match order_type {
            OrderType::Limit => price_near(random, &record, board, middle),
            _ => 0,
        };
        let event = encode::order(&Order {
            customer,
            number,
            security,
            board: board as u8,
            side: random.below(2) as u8,
            order_type: order_type as u8,
            channel: 0,
            price,
            volume: record.lot * (1 + random.below(10)),
        });
        self.keep(event)
    }

    /// A security, the position around which it trades, and a board.
    fn any_security(&mut self) -> (u16, u32, Board) {
        let (security, middle) = self.random.pick(&self.securities);
        let boards = [Board::Main, Board::Main, Board::Foreign];
        (security, middle, self.random.pick(&boards))
    }

    /// The same where there is a bid and an offer, which MP orders need, if one
    /// is soon found.
    fn quoted(&mut self) -> (u16, u32, Board) {
        let mut found = self.any_security();
        for _ in 0..MOST_LOOKS {
            let quotes = *self.security(found.0).quotes(found.2);
            if quotes.bid != 0 && quotes.offer != 0 {
                break;
            }
            found = self.any_security();
        }
        found
    }

    fn keep(&mut self, event: Vec<u8>) -> Vec<u8> {
        gate::handle(&mut self.words, &event);
        event
    }

    fn written(&mut self) -> Vec<u8> {
        match self.next_kind() {
            Kind::Clock => self.clock(),
            Kind::Session => encode::session(self.random.pick(self.mixture.sessions) as u8),
            Kind::Setup => self.setup(),
            Kind::Prices => self.prices(),
            Kind::Figures => self.figures(),
            Kind::Order => self.order(),
            Kind::Repeat => self.repeat(),
            Kind::Cancel => self.cancel(),
            Kind::Match => self.match_report(),
            Kind::Rest => self.rest(),
            Kind::Malformed => {
                let event = self.written();
                malformed(&mut self.random, &self.words, event)
            }
        }
    }

    fn next_kind(&mut self) -> Kind {
        let total = self.mixture.kinds.iter().map(|(_, weight)| weight).sum();
        let mut place = self.random.below(total);
        for &(kind, weight) in self.mixture.kinds {
            if place < weight {
                return kind;
            }
            place -= weight;
        }
        unreachable!("the place is below the sum of the weights")
    }

    fn header(&self) -> Header {
        Header::read(&self.words).expect("a history keeps its header whole")
    }

    fn security(&self, security: u16) -> Security {
        let place = self.header().security_place(security.into());
        let place = place.expect("those that take part are in the state");
        Security::read(&self.words[place]).expect("a history keeps its records sound")
    }

    fn desk(&self, customer: u16) -> Desk {
        let header = self.header();
        let place = header.desk_place(customer.into());
        let place = place.expect("those that take part are in the state");
        Desk::read(&self.words[place], header.securities, header.clock)
            .expect("a history keeps its records sound")
    }

    /// A customer, one with such a row if there is any, and that row.
    fn customer_with(&mut self, wanted: impl Fn(&Row) -> bool) -> (u16, Option<Row>) {
        let mut customer = self.random.pick(&self.customers);
        for _ in 0..4 {
            let desk = self.desk(customer);
            let rows: Vec<Row> = desk
                .rows()
                .iter()
                .copied()
                .filter(|row| wanted(row))
                .collect();
            if !rows.is_empty() {
                return (customer, Some(self.random.pick(&rows)));
            }
            customer = self.random.pick(&self.customers);
        }
        (customer, None)
    }

    fn clock(&mut self) -> Vec<u8> {
        let clock = self.header().clock;
        let random = &mut self.random;
        let later = match random.below(12) {
            0 => 0,
            1..=4 => random.below(3_000),
            5 => CANCEL_MEMORY - 1 + random.below(3),
            6 => random.below(CANCEL_MEMORY),
            7 if random.once_in(20) => random.below(LAST_TIME),
            8 if random.once_in(20) => LAST_TIME - clock + random.below(2),
            9 => return encode::clock(clock.saturating_sub(random.below(5))),
            _ => return self.clock_at_the_minute(clock),
        };
        encode::clock((clock + later).min(LAST_TIME + 1))
    }

    /// When a cancel is a minute old, or one millisecond more.
    fn clock_at_the_minute(&mut self, clock: u32) -> Vec<u8> {
        let (_, row) = self.customer_with(|row| !row.is_open());
        let minute = match row.map(|row| row.mark) {
            Some(Mark::Cancelled { at }) => at + CANCEL_MEMORY + self.random.below(2),
            _ => 0,
        };
        encode::clock(minute.clamp(clock, LAST_TIME))
    }

    fn setup(&mut self) -> Vec<u8> {
        let (security, middle) = self.random.pick(&self.securities);
        let random = &mut self.random;
        let ipo = match random.below(3) {
            0 => 0,
            1 => step(middle, random.below(9) as i32 - 4),
            _ if random.once_in(12) => LAST_PRICE + 1 + random.below(300),
            _ => (step(middle, 0) + random.below(300)).min(LAST_PRICE),
        };
        encode::setup(&Setup {
            security,
            lot: random.pick(&[100, 100, 100, 50, 1]),
            // Q and warn 30 are for free securities, C is for the others.
            free: random.below(2) as u8,
            first_day: random.below(2) as u8,
            prior_close: prior_close(random, middle),
            ipo,
        })
    }

    fn prices(&mut self) -> Vec<u8> {
        let place = self.random.place(self.securities.len());
        let random = &mut self.random;
        if random.once_in(40) {
            self.securities[place].1 = middle(random);
        }
        let (security, middle) = self.securities[place];
        // Before the first trade of a day the prior close is warn 10's reference.
        let [projected, last] = match random.once_in(5) {
            true => [0, 0],
            false => [(); 2].map(|()| market_price(random, middle)),
        };
        encode::prices(&Prices {
            security,
            board: random.pick(&[0, 0, 1]),
            projected,
            last,
            bid: market_price(random, middle),
            offer: market_price(random, middle),
        })
    }

    fn figures(&mut self) -> Vec<u8> {
        let (security, _) = self.random.pick(&self.securities);
        let close = self.security(security).prior_close;
        encode::figures(&any_figures(&mut self.random, security, close))
    }

    fn order(&mut self) -> Vec<u8> {
        let customer = self.random.pick(&self.customers);
        let (security, middle, board) = self.any_security();
        let fitting = match self.header().session {
            Session::PreOpen => OrderType::Ato,
            Session::PreClose => OrderType::Atc,
            _ => OrderType::Mp,
        };
        let order_type = order_type(&mut self.random, fitting);
        let record = self.security(security);
        let desk = self.desk(customer);
        let number = self.number(&desk);
        let random = &mut self.random;
        let price = match order_type {
            OrderType::Limit => limit_price(random, &record, board, desk.rows(), middle),
            _ => 0,
        };
        encode::order(&Order {
            customer,
            number,
            security,
            board: board as u8,
            side: random.below(2) as u8,
            order_type: order_type as u8,
            channel: random.pick(self.mixture.channels),
            price,
            volume: volume(random, record.lot, price, desk.rows()),
        })
    }

    fn repeat(&mut self) -> Vec<u8> {
        let (customer, row) = self.customer_with(|row| !row.is_open());
        let Some(row) = row else {
            return self.order();
        };
        let lot = self.security(row.security as u16).lot;
        let desk = self.desk(customer);
        let number = match self.random.below(4) {
            0 => row.number,
            _ => self.number(&desk),
        };
        let random = &mut self.random;
        encode::order(&Order {
            customer,
            number,
            security: row.security as u16,
            board: row.board as u8,
            side: row.side as u8,
            order_type: row.order_type as u8,
            channel: random.pick(self.mixture.channels),
            price: row.price,
            volume: repeated_volume(random, lot, &row),
        })
    }

    /// Mostly one that the desk does not have. The numbers are small, so that
    /// customers use the same ones.
    fn number(&mut self, desk: &Desk) -> u32 {
        if self.random.once_in(20) && !desk.rows().is_empty() {
            return self.random.pick(desk.rows()).number;
        }
        let is_used = |number| desk.rows().iter().any(|row| row.number == number);
        let mut number = 1 + self.random.below(60);
        while is_used(number) {
            number += 1;
        }
        match self.random.below(200) {
            0 => u32::MAX,
            _ => number,
        }
    }

    fn cancel(&mut self) -> Vec<u8> {
        let any = self.random.once_in(12);
        let (customer, row) = self.customer_with(|row| any || row.is_open());
        let number = row.map_or(1 + self.random.below(60), |row| row.number);
        encode::cancel(customer, number)
    }

    fn match_report(&mut self) -> Vec<u8> {
        let any = self.random.once_in(12);
        let (customer, row) = self.customer_with(|row| any || row.is_open());
        let random = &mut self.random;
        let (number, open) =
            row.map_or((1 + random.below(60), 100), |row| (row.number, row.volume));
        let volume = match random.below(10) {
            0..=3 => open,
            4..=7 => 1 + random.below(open),
            8 => open.saturating_add(1),
            _ => random.pick(&[0, 1, u32::MAX]),
        };
        encode::match_report(customer, number, volume)
    }

    /// An MP order that finds a best price, for a rest to come.
    fn mp_order(&mut self, customer: u16) -> Vec<u8> {
        let (security, _, board) = self.quoted();
        let lot = self.security(security).lot;
        let desk = self.desk(customer);
        let number = self.number(&desk);
        let random = &mut self.random;
        encode::order(&Order {
            customer,
            number,
            security,
            board: board as u8,
            side: random.below(2) as u8,
            order_type: OrderType::Mp as u8,
            channel: random.pick(self.mixture.channels),
            price: 0,
            volume: volume(random, lot, 0, desk.rows()),
        })
    }

    /// Mostly for an MP row, and mostly near the market.
    fn rest(&mut self) -> Vec<u8> {
        let any = self.random.once_in(12);
        let (customer, row) = self.customer_with(|row| any || row.order_type == OrderType::Mp);
        let Some(row) = row else {
            if self.header().session == Session::Open && !self.random.once_in(4) {
                return self.mp_order(customer);
            }
            let number = 1 + self.random.below(60);
            return encode::rest(customer, number, step(middle(&mut self.random), 0));
        };
        let security = row.security as u16;
        let record = self.security(security);
        let desk = self.desk(customer);
        let random = &mut self.random;
        let traded = self.securities.iter().find(|traded| traded.0 == security);
        let middle = traded.map_or(1, |traded| traded.1);
        let price = match random.below(30) {
            0 => random.word() % (LAST_PRICE + 1_000),
            1 => 0,
            _ => limit_price(random, &record, row.board, desk.rows(), middle),
        };
        encode::rest(customer, row.number, price)
    }
}
