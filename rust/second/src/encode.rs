//! Builds the bytes of events, for tests and for those who feed the gate.

use crate::event::{Event, Figures, Order, Prices, Setup};

pub fn clock(time: u32) -> Vec<u8> {
    Bytes::of_kind(1).u32(time).done()
}

pub fn session(session: u8) -> Vec<u8> {
    Bytes::of_kind(2).u8(session).done()
}

pub fn setup(setup: &Setup) -> Vec<u8> {
    Bytes::of_kind(3)
        .u16(setup.security)
        .u8(setup.lot)
        .u8(setup.free)
        .u8(setup.first_day)
        .u32(setup.prior_close)
        .u32(setup.ipo)
        .done()
}

pub fn prices(prices: &Prices) -> Vec<u8> {
    Bytes::of_kind(4)
        .u16(prices.security)
        .u8(prices.board)
        .u32(prices.projected)
        .u32(prices.last)
        .u32(prices.bid)
        .u32(prices.offer)
        .done()
}

pub fn order(order: &Order) -> Vec<u8> {
    Bytes::of_kind(5)
        .u16(order.customer)
        .u32(order.number)
        .u16(order.security)
        .u8(order.board)
        .u8(order.side)
        .u8(order.order_type)
        .u8(order.channel)
        .u32(order.price)
        .u32(order.volume)
        .done()
}

pub fn cancel(customer: u16, number: u32) -> Vec<u8> {
    Bytes::of_kind(6).u16(customer).u32(number).done()
}

pub fn match_report(customer: u16, number: u32, volume: u32) -> Vec<u8> {
    Bytes::of_kind(7)
        .u16(customer)
        .u32(number)
        .u32(volume)
        .done()
}

pub fn rest(customer: u16, number: u32, price: u32) -> Vec<u8> {
    Bytes::of_kind(8)
        .u16(customer)
        .u32(number)
        .u32(price)
        .done()
}

pub fn figures(figures: &Figures) -> Vec<u8> {
    Bytes::of_kind(9)
        .u16(figures.security)
        .u32(figures.dividend)
        .u32(figures.subscription)
        .u16(figures.old)
        .u16(figures.new)
        .done()
}

/// The bytes that [`crate::event::decode`] reads as this event.
pub fn event(event: &Event) -> Vec<u8> {
    match event {
        Event::Clock { time } => clock(*time),
        Event::Session { session: code } => session(*code),
        Event::Setup(fields) => setup(fields),
        Event::Prices(fields) => prices(fields),
        Event::Order(fields) => order(fields),
        Event::Cancel { customer, number } => cancel(*customer, *number),
        Event::Match {
            customer,
            number,
            volume,
        } => match_report(*customer, *number, *volume),
        Event::Rest {
            customer,
            number,
            price,
        } => rest(*customer, *number, *price),
        Event::Figures(fields) => figures(fields),
    }
}

struct Bytes(Vec<u8>);

impl Bytes {
    fn of_kind(kind: u8) -> Self {
        Bytes(vec![kind])
    }

    fn u8(mut self, field: u8) -> Self {
        self.0.push(field);
        self
    }

    fn u16(mut self, field: u16) -> Self {
        self.0.extend(field.to_le_bytes());
        self
    }

    fn u32(mut self, field: u32) -> Self {
        self.0.extend(field.to_le_bytes());
        self
    }

    fn done(self) -> Vec<u8> {
        self.0
    }
}

#[cfg(test)]
mod tests {
    use super::*;
    use crate::event::decode;

    #[test]
    fn decoding_gives_the_fields_back() {
        let events = [
            Event::Clock { time: 0x0102_0304 },
            Event::Session { session: 9 },
            Event::Setup(Setup {
                security: 0x0102,
                lot: 3,
                free: 4,
                first_day: 5,
                prior_close: 0x0607_0809,
                ipo: 0x0a0b_0c0d,
            }),
            Event::Prices(Prices {
                security: 0x0102,
                board: 3,
                projected: 0x0405_0607,
                last: 0x0809_0a0b,
                bid: 0x0c0d_0e0f,
                offer: 0x1011_1213,
            }),
            Event::Order(Order {
                customer: 0x0102,
                number: 0x0304_0506,
                security: 0x0708,
                board: 9,
                side: 10,
                order_type: 11,
                channel: 12,
                price: 0x0d0e_0f10,
                volume: 0x1112_1314,
            }),
            Event::Cancel {
                customer: 0x0102,
                number: 0x0304_0506,
            },
            Event::Match {
                customer: 0x0102,
                number: 0x0304_0506,
                volume: 0x0708_090a,
            },
            Event::Rest {
                customer: 0x0102,
                number: 0x0304_0506,
                price: 0x0708_090a,
            },
            Event::Figures(Figures {
                security: 0x0102,
                dividend: 0x0304_0506,
                subscription: 0x0708_090a,
                old: 0x0b0c,
                new: 0x0d0e,
            }),
        ];
        for fields in events {
            assert_eq!(decode(&event(&fields)), Ok(fields));
        }
    }
}
