//! The events that a mixture repeats.
//!
//! A round takes at most one row more than it found, so that it also runs on a
//! desk with a single row left.

use second::answer::Answer;
use second::encode;
use second::event::Order;

use super::level::Level;
use super::{BUY, MAIN, MP, ONLINE, OPEN, PRE_OPEN, Writer};
use crate::mixture::Mixture;

/// So many cancels of one customer fall into a minute, about.
const CANCELS_A_MINUTE: usize = 5;

impl Writer {
    pub fn round(&mut self, mixture: Mixture) {
        match mixture {
            Mixture::Orders => self.orders(),
            Mixture::PreOpen => self.pre_open(),
            Mixture::Cancels => self.cancels(),
            Mixture::CancelMatch => self.cancel_match(),
            Mixture::Market => self.market(),
            Mixture::Sessions => self.change_session(),
        }
    }

    /// Three orders, of which two take a row, and two matches that remove one
    /// each.
    fn orders(&mut self) {
        let customer = self.customer();
        self.enter(customer);
        let rejected = self.rejected(customer);
        self.add(encode::order(&rejected));
        self.match_whole(customer);
        let market_price = Order {
            order_type: MP,
            price: 0,
            ..self.order(customer)
        };
        if self.recorder.add(&encode::order(&market_price)) == Answer::Accept {
            let Order { number, volume, .. } = market_price;
            self.add(encode::match_report(customer, number, volume));
        }
    }

    /// Two limits that warn 10 looks at, one within ten positions of the prior
    /// close and one further away, and two matches that remove a row each.
    fn pre_open(&mut self) {
        let customer = self.customer();
        for steps in [0, 11] {
            let order = self.order(customer);
            let away = steps * Level::of(order.security).step;
            let price = match order.side {
                BUY => order.price - away,
                _ => order.price + away,
            };
            self.add_open(Order {
                board: MAIN,
                channel: ONLINE + (order.number % 2) as u8,
                price,
                ..order
            });
            self.match_whole(customer);
        }
    }

    /// An order, a match of part of a row, and a cancel. The clock moves so that
    /// old cancels are forgotten, and no later than the desk has need of it.
    fn cancels(&mut self) {
        let customer = self.customer();
        if self.is_full(customer) {
            self.next_minute();
        }
        self.enter(customer);
        self.match_part(customer);
        self.cancel(customer);
        let a_minute = CANCELS_A_MINUTE * self.size.customers as usize;
        if self.cancels.is_multiple_of(a_minute) {
            self.next_minute();
        }
    }

    /// A match of part of a row, and a cancel. No order comes that would remove
    /// the cancelled rows: a desk keeps its number of rows, ever fewer of them
    /// open, and after the last one it is set anew.
    fn cancel_match(&mut self) {
        if self.open.iter().all(Vec::is_empty) {
            self.begin_again();
        }
        let customer = self.customer_with_open_row();
        self.match_part(customer);
        self.cancel(customer);
    }

    fn customer_with_open_row(&mut self) -> u16 {
        let first = self.customer();
        let customers = self.size.customers as u16;
        (first..customers)
            .chain(0..first)
            .find(|&customer| !self.open[usize::from(customer)].is_empty())
            .expect("a row is open")
    }

    /// Seven prices, two clocks and a setup.
    fn market(&mut self) {
        for turn in 0..10 {
            let security = self.security();
            match turn {
                3 | 7 => self.tick(1_000),
                9 => self.setup(security),
                _ => self.prices(security, turn % 2),
            }
        }
    }

    fn change_session(&mut self) {
        self.session = if self.session == OPEN { PRE_OPEN } else { OPEN };
        self.add(encode::session(self.session));
    }
}
