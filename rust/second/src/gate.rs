//! The gate: one call an event, over words that the caller lends.
//!
//! Every handler goes through the paper's table from top to bottom and writes
//! only after its last check, so a refusal changes no word.

use std::ops::Range;

use crate::answer::{Answer, Refusal};
use crate::codes::{Board, Channel, OrderType, Session, Side, flag, is_lot};
use crate::event::{self, Event};
use crate::ladder;
use crate::rules::{self, Order, Scene};
use crate::state::{
    DESK_WORDS, Desk, FRESH_LOT, Figures, Header, LAST_TIME, MAX_IPO, MAX_PRIOR_CLOSE, Mark,
    Quotes, ROWS, Row, SECURITY_WORDS, Security, is_market_price, word_count,
};

/// Makes a fresh state of so many customers and securities.
pub fn fresh(words: &mut [u32], customers: u32, securities: u32) -> Answer {
    if word_count(customers, securities) != Some(words.len()) {
        return Refusal::State.into();
    }
    words.fill(0);
    let header = Header {
        customers,
        securities,
        clock: 0,
        session: Session::Closed,
    };
    header.write(words);
    for security in words[header.securities_place()].chunks_exact_mut(SECURITY_WORDS) {
        security[0] = FRESH_LOT;
    }
    Answer::Ok
}

/// Handles one event, whatever the words and the bytes.
pub fn handle(words: &mut [u32], event: &[u8]) -> Answer {
    handle_or_refuse(words, event).unwrap_or_else(Answer::from)
}

fn handle_or_refuse(words: &mut [u32], event: &[u8]) -> Result<Answer, Refusal> {
    let header = Header::read(words).ok_or(Refusal::State)?;
    match event::decode(event)? {
        Event::Clock { time } => set_clock(words, header, time),
        Event::Session { session } => set_session(words, header, session),
        Event::Setup(setup) => set_up(words, &header, &setup),
        Event::Prices(prices) => set_prices(words, &header, &prices),
        Event::Order(order) => screen(words, &header, &order),
        Event::Cancel { customer, number } => cancel(words, &header, customer, number),
        Event::Match {
            customer,
            number,
            volume,
        } => report_match(words, &header, customer, number, volume),
        Event::Rest {
            customer,
            number,
            price,
        } => enter_rest(words, &header, customer, number, price),
        Event::Figures(figures) => set_figures(words, &header, &figures),
    }
}

fn set_clock(words: &mut [u32], mut header: Header, time: u32) -> Result<Answer, Refusal> {
    if time > LAST_TIME {
        return Err(Refusal::Code);
    }
    if time < header.clock {
        return Err(Refusal::Clock);
    }
    header.clock = time;
    header.write(words);
    Ok(Answer::Ok)
}

fn set_session(words: &mut [u32], mut header: Header, session: u8) -> Result<Answer, Refusal> {
    let session = Session::from_code(session.into()).ok_or(Refusal::Code)?;
    // Every record is read, also where the session stays the same.
    let all_sound = words[header.securities_place()]
        .chunks_exact(SECURITY_WORDS)
        .all(Security::is_sound)
        && words[header.desks_place()]
            .chunks_exact(DESK_WORDS)
            .all(|desk| Desk::is_sound(desk, header.securities, header.clock));
    if !all_sound {
        return Err(Refusal::Record);
    }
    if session == header.session {
        return Ok(Answer::Ok);
    }
    for record in words[header.securities_place()].chunks_exact_mut(SECURITY_WORDS) {
        if let Some(mut security) = Security::read(record) {
            security.main.projected = 0;
            security.foreign.projected = 0;
            security.write(record);
        }
    }
    for record in words[header.desks_place()].chunks_exact_mut(DESK_WORDS) {
        if let Some(mut desk) = Desk::read(record, header.securities, header.clock) {
            desk.keep_limits();
            desk.write(record);
        }
    }
    header.session = session;
    header.write(words);
    Ok(Answer::Ok)
}

fn set_up(words: &mut [u32], header: &Header, event: &event::Setup) -> Result<Answer, Refusal> {
    let place = header
        .security_place(event.security.into())
        .ok_or(Refusal::Name)?;
    let lot = u32::from(event.lot);
    if !is_lot(lot) {
        return Err(Refusal::Code);
    }
    let free = flag(event.free.into()).ok_or(Refusal::Code)?;
    let first_day = flag(event.first_day.into()).ok_or(Refusal::Code)?;
    if event.prior_close > MAX_PRIOR_CLOSE || event.ipo > MAX_IPO {
        return Err(Refusal::Price);
    }
    let record = &mut words[place];
    let security = Security::read(record).ok_or(Refusal::Record)?;
    Security {
        lot,
        free,
        first_day,
        prior_close: event.prior_close,
        ipo: event.ipo,
        // Paper 02, request 3: "kind 3 clears it".
        figures: None,
        ..security
    }
    .write(record);
    Ok(Answer::Ok)
}

fn set_prices(
    words: &mut [u32],
    header: &Header,
    event: &event::Prices,
) -> Result<Answer, Refusal> {
    let place = header
        .security_place(event.security.into())
        .ok_or(Refusal::Name)?;
    let board = Board::from_code(event.board.into()).ok_or(Refusal::Code)?;
    let prices = [event.projected, event.last, event.bid, event.offer];
    if !prices.into_iter().all(is_market_price) {
        return Err(Refusal::Price);
    }
    let record = &mut words[place];
    let mut security = Security::read(record).ok_or(Refusal::Record)?;
    *security.quotes_mut(board) = Quotes {
        projected: event.projected,
        last: event.last,
        bid: event.bid,
        offer: event.offer,
    };
    security.write(record);
    Ok(Answer::Ok)
}

/// Conditions 4, 8 and 13 and no others: kind 9 has no code, and its numbers are
/// no prices that a rule compares.
fn set_figures(
    words: &mut [u32],
    header: &Header,
    event: &event::Figures,
) -> Result<Answer, Refusal> {
    let place = header
        .security_place(event.security.into())
        .ok_or(Refusal::Name)?;
    let record = &mut words[place];
    let mut security = Security::read(record).ok_or(Refusal::Record)?;
    let figures = Figures {
        dividend: event.dividend,
        subscription: event.subscription,
        old: event.old,
        new: event.new,
    };
    if !figures.fit(security.prior_close) {
        return Err(Refusal::Figures);
    }
    security.figures = Some(figures);
    security.write(record);
    Ok(Answer::Ok)
}

fn screen(words: &mut [u32], header: &Header, event: &event::Order) -> Result<Answer, Refusal> {
    let desk_place = header
        .desk_place(event.customer.into())
        .ok_or(Refusal::Name)?;
    let security_place = header
        .security_place(event.security.into())
        .ok_or(Refusal::Name)?;
    let order = check_order(event)?;

    let security = Security::read(&words[security_place]).ok_or(Refusal::Record)?;
    let record = &mut words[desk_place];
    let mut desk = Desk::read(record, header.securities, header.clock).ok_or(Refusal::Record)?;
    if desk.is_number_taken(order.number, header.clock) {
        return Err(Refusal::NumberTaken);
    }

    let scene = Scene {
        session: header.session,
        clock: header.clock,
        security: &security,
        rows: desk.rows(),
    };
    let verdict = rules::verdict(&scene, &order);
    let counter = match verdict {
        Answer::Accept => &mut desk.accepted,
        Answer::Warn30 | Answer::Warn10 => &mut desk.warned,
        _ => &mut desk.rejected,
    };
    *counter = counter.saturating_add(1);

    if matches!(verdict, Answer::Accept | Answer::Warn30 | Answer::Warn10) {
        // The desk is still only a copy: the refusal drops the counter with it.
        if desk.live_rows(header.clock) == ROWS {
            return Err(Refusal::DeskFull);
        }
        desk.admit(open_row(&order), header.clock);
    }
    desk.write(record);
    Ok(verdict)
}

/// Conditions 5 and 6 of an order.
fn check_order(event: &event::Order) -> Result<Order, Refusal> {
    if event.number == 0 {
        return Err(Refusal::Code);
    }
    let order = Order {
        number: event.number,
        security: event.security.into(),
        board: Board::from_code(event.board.into()).ok_or(Refusal::Code)?,
        side: Side::from_code(event.side.into()).ok_or(Refusal::Code)?,
        order_type: OrderType::from_code(event.order_type.into()).ok_or(Refusal::Code)?,
        channel: Channel::from_code(event.channel.into()).ok_or(Refusal::Code)?,
        price: event.price,
        volume: event.volume,
    };
    let price_fits = match order.order_type {
        OrderType::Limit => ladder::legal(order.price),
        OrderType::Ato | OrderType::Atc | OrderType::Mp => order.price == 0,
    };
    price_fits.then_some(order).ok_or(Refusal::Price)
}

fn open_row(order: &Order) -> Row {
    Row {
        mark: Mark::Open,
        number: order.number,
        security: order.security,
        board: order.board,
        side: order.side,
        order_type: order.order_type,
        price: order.price,
        volume: order.volume,
    }
}

fn cancel(
    words: &mut [u32],
    header: &Header,
    customer: u16,
    number: u32,
) -> Result<Answer, Refusal> {
    let record = &mut words[desk_of_row(header, customer, number)?];
    let (mut desk, index) = take_open_row(record, header, number)?;
    let row = desk.row_mut(index);
    if row.order_type == OrderType::Limit {
        row.mark = Mark::Cancelled { at: header.clock };
    } else {
        desk.remove(index);
    }
    desk.write(record);
    Ok(Answer::Ok)
}

fn report_match(
    words: &mut [u32],
    header: &Header,
    customer: u16,
    number: u32,
    volume: u32,
) -> Result<Answer, Refusal> {
    let record = &mut words[desk_of_row(header, customer, number)?];
    let (mut desk, index) = take_open_row(record, header, number)?;
    let row = desk.row_mut(index);
    if volume == 0 || volume > row.volume {
        return Err(Refusal::MatchVolume);
    }
    row.volume -= volume;
    if row.volume == 0 {
        desk.remove(index);
    }
    desk.write(record);
    Ok(Answer::Ok)
}

/// "It makes an open type 3 row a limit at that ladder price." Paper 02 gives
/// the event no verdict, so no rule is asked and no counter moves.
fn enter_rest(
    words: &mut [u32],
    header: &Header,
    customer: u16,
    number: u32,
    price: u32,
) -> Result<Answer, Refusal> {
    let place = desk_of_row(header, customer, number)?;
    if !ladder::legal(price) {
        return Err(Refusal::Price);
    }
    let record = &mut words[place];
    let (mut desk, index) = take_open_row(record, header, number)?;
    let row = desk.row_mut(index);
    if row.order_type != OrderType::Mp {
        return Err(Refusal::NoOpenRow);
    }
    row.order_type = OrderType::Limit;
    row.price = price;
    desk.write(record);
    Ok(Answer::Ok)
}

/// Conditions 4 and 5 of an event that names a row: where its desk stands.
fn desk_of_row(header: &Header, customer: u16, number: u32) -> Result<Range<usize>, Refusal> {
    let place = header.desk_place(customer.into()).ok_or(Refusal::Name)?;
    if number == 0 {
        return Err(Refusal::Code);
    }
    Ok(place)
}

/// Conditions 8 and 10 of an event that names a row: the desk taken out of its
/// words, and where in it the open row with the number stands.
fn take_open_row(record: &[u32], header: &Header, number: u32) -> Result<(Desk, usize), Refusal> {
    let desk = Desk::read(record, header.securities, header.clock).ok_or(Refusal::Record)?;
    let index = desk.find_open(number).ok_or(Refusal::NoOpenRow)?;
    Ok((desk, index))
}
