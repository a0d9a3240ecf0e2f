//! The screening rules. They see one customer's rows and the market's prices
//! and nothing else, and only sound records ever come here.

use crate::answer::{Answer, Rule};
use crate::codes::{Board, Channel, OrderType, Session, Side};
use crate::ladder;
use crate::range::Range;
use crate::state::{MAX_VOLUME, Quotes, Row, Security, present};

/// 500 million baht, in satang.
const MAX_VALUE: u64 = 500_000_000_00;
/// 3 million baht, in satang: from here on P looks at an order.
const REPEAT_VALUE: u64 = 3_000_000_00;
/// So many ladder positions from the reference an order may stand.
const FAR_POSITIONS: u32 = 10;

/// An order whose codes and price have been checked.
#[derive(Clone, Copy, Debug, PartialEq, Eq)]
pub struct Order {
    pub number: u32,
    pub security: u32,
    pub board: Board,
    pub side: Side,
    pub order_type: OrderType,
    pub channel: Channel,
    pub price: u32,
    pub volume: u32,
}

impl Order {
    fn is_limit(&self) -> bool {
        self.order_type == OrderType::Limit
    }

    /// Value in satang; only a limit order has one that means anything.
    fn value(&self) -> u64 {
        u64::from(self.price) * u64::from(self.volume)
    }
}

/// What an order meets: the market as it stands and the customer's own rows.
#[derive(Clone, Copy, Debug)]
pub struct Scene<'a> {
    pub session: Session,
    pub clock: u32,
    /// The order's security.
    pub security: &'a Security,
    /// The customer's marked rows.
    pub rows: &'a [Row],
}

/// The first verdict that applies.
pub fn verdict(scene: &Scene, order: &Order) -> Answer {
    if rule_s(scene, order) {
        Answer::Reject(Rule::S)
    } else if rule_v(scene, order) {
        Answer::Reject(Rule::V)
    } else if rule_c(scene, order) {
        Answer::Reject(Rule::C)
    } else if rule_q(scene, order) {
        Answer::Reject(Rule::Q)
    } else if rule_w(scene, order) {
        Answer::Reject(Rule::W)
    } else if rule_p(scene, order) {
        Answer::Reject(Rule::P)
    } else if warn_30(scene, order) {
        Answer::Warn30
    } else if warn_10(scene, order) {
        Answer::Warn10
    } else {
        Answer::Accept
    }
}

/// The session does not take this type of order, or a market-price order finds
/// no price opposite on its board.
pub fn rule_s(scene: &Scene, order: &Order) -> bool {
    if matches!(scene.session, Session::Closed | Session::Break) {
        return true;
    }
    match order.order_type {
        OrderType::Limit => false,
        OrderType::Ato => scene.session != Session::PreOpen,
        OrderType::Atc => scene.session != Session::PreClose,
        OrderType::Mp => {
            let quotes = scene.security.quotes(order.board);
            scene.session != Session::Open || present(best_opposite(quotes, order.side)).is_none()
        }
    }
}

/// Size, lot and, for limits, value.
pub fn rule_v(scene: &Scene, order: &Order) -> bool {
    !(1..=MAX_VOLUME).contains(&order.volume)
        || !order.volume.is_multiple_of(scene.security.lot)
        || (order.is_limit() && order.value() > MAX_VALUE)
}

/// A main-board limit outside the day's range, where the security has one.
pub fn rule_c(scene: &Scene, order: &Order) -> bool {
    order.is_limit()
        && order.board == Board::Main
        && Range::of(scene.security).is_some_and(|range| !range.has(order.price))
}

/// A limit outside 50% to 150% of the reference while orders gather.
pub fn rule_q(scene: &Scene, order: &Order) -> bool {
    let security = scene.security;
    if !(order.is_limit() && scene.session.gathers() && security.free) {
        return false;
    }
    let reference = present(security.quotes(order.board).projected)
        .or_else(|| last_sale(security, order.board))
        .or_else(|| present(security.ipo).filter(|_| security.first_day));
    reference.is_some_and(|reference| is_outside(order.price, reference, 50, 150))
}

/// An online order that would meet the customer's own open order.
pub fn rule_w(scene: &Scene, order: &Order) -> bool {
    order.channel == Channel::Online
        && scene.rows.iter().any(|row| {
            row.is_open()
                && row.security == order.security
                && row.board == order.board
                && row.side != order.side
                && would_meet(scene, order, row)
        })
}

/// `order` against an open row of the same security and board, opposite side.
fn would_meet(scene: &Scene, order: &Order, row: &Row) -> bool {
    use OrderType::{Atc, Ato, Limit, Mp};
    let quotes = scene.security.quotes(order.board);
    let projected = present(quotes.projected).filter(|_| scene.session.gathers());
    match (order.order_type, row.order_type) {
        (Limit, Limit) => reaches(order.side, order.price, row.price),
        (Ato | Atc, Ato | Atc) => true,
        (Limit, Ato | Atc) => projected.is_some_and(|at| reaches(order.side, order.price, at)),
        (Ato | Atc, Limit) => projected.is_some_and(|at| reaches(row.side, row.price, at)),
        (Mp, Limit) => best_opposite(quotes, order.side) == row.price,
        // Paper 02: an MP row is compared with only once it is a limit.
        (Mp, Ato | Atc) | (_, Mp) => false,
    }
}

/// A large online limit put in again within a minute of its cancel.
pub fn rule_p(scene: &Scene, order: &Order) -> bool {
    order.is_limit()
        && order.channel == Channel::Online
        && scene.session == Session::Open
        && order.value() >= REPEAT_VALUE
        && scene.rows.iter().any(|row| {
            row.is_lately_cancelled(scene.clock)
                && row.security == order.security
                && row.board == order.board
                && row.side == order.side
                && row.price == order.price
                && 2 * u64::from(order.volume) >= u64::from(row.volume)
        })
}

/// A limit outside 70% to 130% of the last sale in the open session.
pub fn warn_30(scene: &Scene, order: &Order) -> bool {
    order.is_limit()
        && scene.session == Session::Open
        && scene.security.free
        && last_sale(scene.security, order.board)
            .is_some_and(|last| is_outside(order.price, last, 70, 130))
}

/// A limit more than ten ladder positions from the reference while orders gather.
pub fn warn_10(scene: &Scene, order: &Order) -> bool {
    let security = scene.security;
    if !(order.is_limit()
        && order.board == Board::Main
        && scene.session.gathers()
        && matches!(order.channel, Channel::Online | Channel::Dma))
    {
        return false;
    }
    let reference = present(security.main.projected)
        .or_else(|| present(security.main.last))
        .or_else(|| present(security.prior_close));
    let own = ladder::position(order.price);
    match (own, reference.and_then(ladder::nearest)) {
        // Paper 02, request 2: "counts up from the lower and down from the upper
        // position". A prior close may lie between them.
        (Some(own), Some(reference)) => {
            own > reference.lower + FAR_POSITIONS || own + FAR_POSITIONS < reference.upper
        }
        _ => false,
    }
}

/// The board's last sale; on the foreign board, else the main board's.
fn last_sale(security: &Security, board: Board) -> Option<u32> {
    // On the main board the fallback is the same price again.
    present(security.quotes(board).last).or_else(|| present(security.main.last))
}

/// The best price on the other side of the book, 0 if absent.
fn best_opposite(quotes: &Quotes, side: Side) -> u32 {
    match side {
        Side::Buy => quotes.offer,
        Side::Sell => quotes.bid,
    }
}

/// A buy at or above the other price, a sell at or below it.
fn reaches(side: Side, price: u32, other: u32) -> bool {
    match side {
        Side::Buy => price >= other,
        Side::Sell => price <= other,
    }
}

/// Below `low` or above `high` percent of the reference, exactly.
fn is_outside(price: u32, reference: u32, low: u64, high: u64) -> bool {
    let price = u64::from(price) * 100;
    let reference = u64::from(reference);
    price < reference * low || price > reference * high
}
