//! Writes the events of a list, and knows the open orders.

mod level;
mod rounds;

use second::encode;
use second::event::{Order, Prices, Setup};
use second::state::{CANCEL_MEMORY, ROWS};

use crate::list::{List, Recorder};
use crate::size::Size;
use level::Level;

const OPENING: u32 = 36_000_000;
/// So much later every cancel so far is forgotten.
const MINUTE: u32 = CANCEL_MEMORY + 1;

pub const PRE_OPEN: u8 = 1;
pub const OPEN: u8 = 2;
const MAIN: u8 = 0;
const BUY: u8 = 0;
const SELL: u8 = 1;
const LIMIT: u8 = 0;
const ATO: u8 = 1;
const MP: u8 = 3;
const ONLINE: u8 = 1;

pub struct Writer {
    recorder: Recorder,
    random: u64,
    size: Size,
    clock: u32,
    session: u8,
    number: u32,
    cancels: usize,
    /// Each customer's open orders.
    open: Vec<Vec<Order>>,
    /// Those that were open when the list began.
    open_at_start: Vec<Vec<Order>>,
    /// How many of each customer's orders were cancelled in this minute.
    cancelled: Vec<usize>,
}

impl Writer {
    pub fn new(session: u8, size: Size) -> Self {
        Writer {
            recorder: Recorder::new(size.customers, size.securities),
            random: 1,
            size,
            clock: OPENING,
            session,
            number: 0,
            cancels: 0,
            open: vec![Vec::new(); size.customers as usize],
            open_at_start: Vec::new(),
            cancelled: vec![0; size.customers as usize],
        }
    }

    pub fn open_the_day(&mut self) {
        self.add(encode::clock(self.clock));
        self.add(encode::session(self.session));
        for security in 0..self.size.securities as u16 {
            self.setup(security);
            self.prices(security, 0);
            self.prices(security, 1);
        }
        for customer in 0..self.size.customers as u16 {
            for _ in 0..self.size.rows {
                self.enter(customer);
            }
        }
    }

    /// What was added so far only leads to the start of what is timed.
    pub fn begin(&mut self) {
        self.recorder.begin();
        self.open_at_start.clone_from(&self.open);
    }

    /// On the desks as they were at the start.
    fn begin_again(&mut self) {
        self.recorder.begin_again();
        self.open.clone_from(&self.open_at_start);
    }

    pub fn len(&self) -> usize {
        self.recorder.len()
    }

    pub fn finish(self) -> List {
        self.recorder.finish()
    }

    fn add(&mut self, event: Vec<u8>) {
        self.recorder.add(&event);
    }

    fn tick(&mut self, later: u32) {
        self.clock += later;
        self.add(encode::clock(self.clock));
    }

    fn next_minute(&mut self) {
        self.tick(MINUTE);
        self.cancelled.fill(0);
    }

    fn setup(&mut self, security: u16) {
        self.add(encode::setup(&Setup {
            security,
            lot: 1,
            free: (security % 2) as u8,
            first_day: 0,
            prior_close: self.prior_close(security),
            ipo: 0,
        }));
    }

    /// Of every other security between two steps, where it is a reference.
    fn prior_close(&self, security: u16) -> u32 {
        let Level { price, step } = Level::of(security);
        match self.session {
            PRE_OPEN => price + step / 2 * u32::from(security % 2),
            _ => price,
        }
    }

    /// Before the opening there is no last sale yet.
    fn prices(&mut self, security: u16, board: u8) {
        let level = Level::of(security);
        let last = match self.session {
            PRE_OPEN => 0,
            _ => level.bid() + level.step * self.below(3),
        };
        self.add(encode::prices(&Prices {
            security,
            board,
            projected: 0,
            last,
            bid: level.bid(),
            offer: level.offer(),
        }));
    }

    /// A limit that does not meet those on the other side.
    fn order(&mut self, customer: u16) -> Order {
        self.number += 1;
        let side = self.below(2) as u8;
        let steps = self.below(8);
        let security = self.security();
        let level = Level::of(security);
        let away = steps * level.step;
        Order {
            customer,
            number: self.number,
            security,
            board: self.below(2) as u8,
            side,
            order_type: LIMIT,
            channel: self.below(3) as u8,
            price: if side == BUY {
                level.bid() - away
            } else {
                level.offer() + away
            },
            volume: 100 + self.below(900),
        }
    }

    fn enter(&mut self, customer: u16) {
        let order = self.order(customer);
        self.add_open(order);
    }

    fn add_open(&mut self, order: Order) {
        self.add(encode::order(&order));
        self.open[usize::from(order.customer)].push(order);
    }

    /// Would an order find 32 rows open or cancelled in this minute?
    fn is_full(&self, customer: u16) -> bool {
        let customer = usize::from(customer);
        self.open[customer].len() + self.cancelled[customer] >= ROWS
    }

    fn match_whole(&mut self, customer: u16) {
        let place = self.open_place(customer);
        let row = self.open[usize::from(customer)].remove(place);
        self.add(encode::match_report(customer, row.number, row.volume));
    }

    /// Of one share, so that a row lasts.
    fn match_part(&mut self, customer: u16) {
        let place = self.open_place(customer);
        let row = &mut self.open[usize::from(customer)][place];
        row.volume -= 1;
        let number = row.number;
        self.add(encode::match_report(customer, number, 1));
    }

    fn cancel(&mut self, customer: u16) {
        let place = self.open_place(customer);
        let row = self.open[usize::from(customer)].remove(place);
        self.add(encode::cancel(customer, row.number));
        self.cancelled[usize::from(customer)] += 1;
        self.cancels += 1;
    }

    /// One that meets an own row (W), has no volume (V) or is out of its session
    /// (S), each as often as the others, about.
    fn rejected(&mut self, customer: u16) -> Order {
        let order = self.order(customer);
        let place = self.open_place(customer);
        let row = self.open[usize::from(customer)][place];
        match self.below(3) {
            0 => Order {
                number: order.number,
                side: SELL - row.side,
                channel: ONLINE,
                ..row
            },
            1 => Order { volume: 0, ..order },
            _ => Order {
                order_type: ATO,
                price: 0,
                ..order
            },
        }
    }

    fn open_place(&mut self, customer: u16) -> usize {
        let count = self.open[usize::from(customer)].len();
        self.below(count as u32) as usize
    }

    fn customer(&mut self) -> u16 {
        self.below(self.size.customers) as u16
    }

    fn security(&mut self) -> u16 {
        self.below(self.size.securities) as u16
    }

    fn below(&mut self, bound: u32) -> u32 {
        self.random ^= self.random << 13;
        self.random ^= self.random >> 7;
        self.random ^= self.random << 17;
        ((self.random >> 20) % u64::from(bound)) as u32
    }
}
