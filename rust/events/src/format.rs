//! An event to its line.

use std::fmt;

use second::event::{Event, Figures, Order, Prices, Setup};

use crate::words::{ABSENT, BOARDS, CHANNELS, Codes, LIMIT, SESSIONS, SIDES, TYPES};

/// The line of an event.
pub fn format(event: &Event) -> String {
    match event {
        Event::Clock { time } => format!("clock {}", Time(*time)),
        Event::Session { session } => match SESSIONS.word(*session) {
            Some(word) => format!("session {word}"),
            None => Code(&SESSIONS, *session).to_string(),
        },
        Event::Setup(setup) => format_setup(setup),
        Event::Prices(prices) => format_prices(prices),
        Event::Order(order) => format_order(order),
        Event::Cancel { customer, number } => format!("cancel {customer} no {number}"),
        Event::Match {
            customer,
            number,
            volume,
        } => format!("match {customer} no {number} x {volume}"),
        Event::Rest {
            customer,
            number,
            price,
        } => format!("rest {customer} no {number} at {}", Price(*price)),
        Event::Figures(figures) => format_figures(figures),
    }
}

fn format_setup(setup: &Setup) -> String {
    format!(
        "setup {} lot {}{}{} close {} ipo {}",
        setup.security,
        setup.lot,
        Flag("free", setup.free),
        Flag("first-day", setup.first_day),
        Price(setup.prior_close),
        Price(setup.ipo),
    )
}

fn format_prices(prices: &Prices) -> String {
    format!(
        "prices {} {} projected {} last {} bid {} offer {}",
        prices.security,
        Code(&BOARDS, prices.board),
        Price(prices.projected),
        Price(prices.last),
        Price(prices.bid),
        Price(prices.offer),
    )
}

fn format_order(order: &Order) -> String {
    let price = if order.order_type == LIMIT || order.price != 0 {
        format!(" {}", Price(order.price))
    } else {
        String::new()
    };
    format!(
        "order {} no {} security {} {} {} {}{price} x {} {}",
        order.customer,
        order.number,
        order.security,
        Code(&BOARDS, order.board),
        Code(&SIDES, order.side),
        Code(&TYPES, order.order_type),
        order.volume,
        Code(&CHANNELS, order.channel),
    )
}

fn format_figures(figures: &Figures) -> String {
    format!(
        "figures {} old {} new {} dividend {} subscription {}",
        figures.security,
        figures.old,
        figures.new,
        Price(figures.dividend),
        Price(figures.subscription),
    )
}

/// Milliseconds since midnight as `09:55:00.000`. Hours go past 23 where the
/// gate would refuse the time.
struct Time(u32);

impl fmt::Display for Time {
    fn fmt(&self, f: &mut fmt::Formatter<'_>) -> fmt::Result {
        let (seconds, milliseconds) = (self.0 / 1_000, self.0 % 1_000);
        let (minutes, second) = (seconds / 60, seconds % 60);
        let (hour, minute) = (minutes / 60, minutes % 60);
        write!(f, "{hour:02}:{minute:02}:{second:02}.{milliseconds:03}")
    }
}

/// Satang as baht with two decimals; 0 as `-`.
#[derive(Clone, Copy, Debug)]
pub struct Price(pub u32);

impl fmt::Display for Price {
    fn fmt(&self, f: &mut fmt::Formatter<'_>) -> fmt::Result {
        match self.0 {
            0 => f.write_str(ABSENT),
            satang => write!(f, "{}.{:02}", satang / 100, satang % 100),
        }
    }
}

/// The word of a code; the list's name and a number where it has none.
#[derive(Clone, Copy, Debug)]
pub struct Code(pub &'static Codes, pub u8);

impl fmt::Display for Code {
    fn fmt(&self, f: &mut fmt::Formatter<'_>) -> fmt::Result {
        match self.0.word(self.1) {
            Some(word) => f.write_str(word),
            None => write!(f, "{} {}", self.0.name, self.1),
        }
    }
}

struct Flag(&'static str, u8);

impl fmt::Display for Flag {
    fn fmt(&self, f: &mut fmt::Formatter<'_>) -> fmt::Result {
        match self.1 {
            0 => Ok(()),
            1 => write!(f, " {}", self.0),
            code => write!(f, " {} {code}", self.0),
        }
    }
}
