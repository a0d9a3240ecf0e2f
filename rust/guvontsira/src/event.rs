//! Events by their fields, and their bytes.

use crate::codes::{Board, Channel, OrderType, Session, Side};

/// The most shares in one order.
pub const MAX_VOLUME: u32 = 20_000_000;

/// One event of a trading day. Customers and securities are numbered from 0;
/// prices are in satang, and 0 is an absent one. What the gate refuses can be
/// made too, but for kinds, lengths and codes (other than the lot) that do not
/// exist.
///
/// ```
/// use guvontsira::{Answer, Event, State};
///
/// let mut state = State::new(8, 16)?;
/// let cancel = Event::Cancel { customer: 0, number: 1 };
/// assert_eq!(cancel.bytes(), [6, 0, 0, 1, 0, 0, 0]);
/// assert_eq!(state.send(&cancel), Answer::Refused(10));
/// # Ok::<(), guvontsira::Refused>(())
/// ```
#[derive(Clone, Copy, Debug, PartialEq, Eq, Hash)]
pub enum Event {
    Clock {
        /// In milliseconds since midnight, at most 86,399,999.
        time: u32,
    },
    Session {
        session: Session,
    },
    /// Clears the figures of the security.
    Setup {
        security: u16,
        /// 1, 50 or 100.
        lot: u8,
        /// Whether there is no ceiling and floor.
        free: bool,
        first_day: bool,
        /// Up to [`MAX_PRICE`](crate::MAX_PRICE), also off the ladder.
        prior_close: u32,
        /// Up to [`MAX_PRICE`](crate::MAX_PRICE), also off the ladder.
        ipo: u32,
    },
    /// All four prices of one board.
    Prices {
        security: u16,
        board: Board,
        projected: u32,
        last: u32,
        bid: u32,
        offer: u32,
    },
    Order {
        customer: u16,
        /// Not 0.
        number: u32,
        security: u16,
        board: Board,
        side: Side,
        order_type: OrderType,
        channel: Channel,
        /// 0 unless a limit.
        price: u32,
        volume: u32,
    },
    Cancel {
        customer: u16,
        number: u32,
    },
    /// What the exchange reports as matched.
    Match {
        customer: u16,
        number: u32,
        volume: u32,
    },
    /// What is left of an MP order stands in the book as a limit: one step past
    /// the last match, as the exchange says.
    Rest {
        customer: u16,
        number: u32,
        price: u32,
    },
    /// What a right that has gone takes from a prior close that is not adjusted
    /// for it. They change the day's range alone, and stand until a setup of the
    /// security. With an adjusted prior close the same right would be taken off
    /// twice.
    Figures {
        security: u16,
        /// Of one share, below the prior close.
        dividend: u32,
        /// What a new share costs; also off the ladder.
        subscription: u32,
        /// Not 0.
        old_shares: u16,
        new_shares: u16,
    },
}

/// The bytes of an event, kept on the stack.
pub(crate) struct Bytes {
    bytes: [u8; Bytes::MOST],
    length: usize,
}

impl Bytes {
    /// Those of an order.
    const MOST: usize = 21;

    fn of_kind(kind: u8) -> Bytes {
        let mut bytes = [0; Bytes::MOST];
        bytes[0] = kind;
        Bytes { bytes, length: 1 }
    }

    fn field<const WIDTH: usize>(mut self, field: [u8; WIDTH]) -> Bytes {
        self.bytes[self.length..][..WIDTH].copy_from_slice(&field);
        self.length += WIDTH;
        self
    }

    fn one(self, field: u8) -> Bytes {
        self.field([field])
    }

    fn two(self, field: u16) -> Bytes {
        self.field(field.to_le_bytes())
    }

    fn four(self, field: u32) -> Bytes {
        self.field(field.to_le_bytes())
    }

    pub(crate) fn as_slice(&self) -> &[u8] {
        &self.bytes[..self.length]
    }
}

impl Event {
    /// The bytes that the gate reads.
    pub fn bytes(&self) -> Vec<u8> {
        self.on_stack().as_slice().to_vec()
    }

    /// Puts the event's bytes behind others, as [`State::run`] takes them.
    ///
    /// [`State::run`]: crate::State::run
    pub fn append_to(&self, bytes: &mut Vec<u8>) {
        bytes.extend_from_slice(self.on_stack().as_slice());
    }

    pub(crate) fn on_stack(&self) -> Bytes {
        match *self {
            Event::Clock { time } => Bytes::of_kind(1).four(time),
            Event::Session { session } => Bytes::of_kind(2).one(session.code()),
            Event::Setup {
                security,
                lot,
                free,
                first_day,
                prior_close,
                ipo,
            } => Bytes::of_kind(3)
                .two(security)
                .one(lot)
                .one(free.into())
                .one(first_day.into())
                .four(prior_close)
                .four(ipo),
            Event::Prices {
                security,
                board,
                projected,
                last,
                bid,
                offer,
            } => Bytes::of_kind(4)
                .two(security)
                .one(board.code())
                .four(projected)
                .four(last)
                .four(bid)
                .four(offer),
            Event::Order {
                customer,
                number,
                security,
                board,
                side,
                order_type,
                channel,
                price,
                volume,
            } => Bytes::of_kind(5)
                .two(customer)
                .four(number)
                .two(security)
                .one(board.code())
                .one(side.code())
                .one(order_type.code())
                .one(channel.code())
                .four(price)
                .four(volume),
            Event::Cancel { customer, number } => Bytes::of_kind(6).two(customer).four(number),
            Event::Match {
                customer,
                number,
                volume,
            } => Bytes::of_kind(7).two(customer).four(number).four(volume),
            Event::Rest {
                customer,
                number,
                price,
            } => Bytes::of_kind(8).two(customer).four(number).four(price),
            Event::Figures {
                security,
                dividend,
                subscription,
                old_shares,
                new_shares,
            } => Bytes::of_kind(9)
                .two(security)
                .four(dividend)
                .four(subscription)
                .two(old_shares)
                .two(new_shares),
        }
    }
}
