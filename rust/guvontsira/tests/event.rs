//! The bytes of events: each kind's length and places as in paper 01, "Events",
//! and in paper 02 (rest and figures).

use guvontsira::{Answer, Board, Channel, Event, Mark, OrderType, Session, Side, State};

const CLOCK: Event = Event::Clock { time: 0x0403_0201 };
const SETUP: Event = Event::Setup {
    security: 0x0201,
    lot: 100,
    free: true,
    first_day: false,
    prior_close: 0x0a09_0807,
    ipo: 0x0e0d_0c0b,
};
const PRICES: Event = Event::Prices {
    security: 0x0201,
    board: Board::Foreign,
    projected: 0x0807_0605,
    last: 0x0c0b_0a09,
    bid: 0x100f_0e0d,
    offer: 0x1413_1211,
};
const ORDER: Event = Event::Order {
    customer: 0x0201,
    number: 0x0605_0403,
    security: 0x0807,
    board: Board::Foreign,
    side: Side::Buy,
    order_type: OrderType::Mp,
    channel: Channel::Dma,
    price: 0x1211_100f,
    volume: 0x1615_1413,
};
const CANCEL: Event = Event::Cancel {
    customer: 0x0201,
    number: 0x0605_0403,
};
const MATCH: Event = Event::Match {
    customer: 0x0201,
    number: 0x0605_0403,
    volume: 0x0a09_0807,
};
const REST: Event = Event::Rest {
    customer: 0x0201,
    number: 0x0605_0403,
    price: 0x0a09_0807,
};

const FIGURES: Event = Event::Figures {
    security: 0x0201,
    dividend: 0x0605_0403,
    subscription: 0x0a09_0807,
    old_shares: 0x0c0b,
    new_shares: 0x0e0d,
};

fn session(session: Session) -> Event {
    Event::Session { session }
}

#[test]
fn places() {
    let table: [(Event, usize, &[u8]); 9] = [
        (CLOCK, 5, &[1, 1, 2, 3, 4]),
        (session(Session::PreClose), 2, &[2, 4]),
        (
            SETUP,
            14,
            &[3, 1, 2, 100, 1, 0, 7, 8, 9, 10, 11, 12, 13, 14],
        ),
        (
            PRICES,
            20,
            &[
                4, 1, 2, 1, 5, 6, 7, 8, 9, 10, 11, 12, 13, 14, 15, 16, 17, 18, 19, 20,
            ],
        ),
        (
            ORDER,
            21,
            &[
                5, 1, 2, 3, 4, 5, 6, 7, 8, 1, 0, 3, 2, 15, 16, 17, 18, 19, 20, 21, 22,
            ],
        ),
        (CANCEL, 7, &[6, 1, 2, 3, 4, 5, 6]),
        (MATCH, 11, &[7, 1, 2, 3, 4, 5, 6, 7, 8, 9, 10]),
        (REST, 11, &[8, 1, 2, 3, 4, 5, 6, 7, 8, 9, 10]),
        (
            FIGURES,
            15,
            &[9, 1, 2, 3, 4, 5, 6, 7, 8, 9, 10, 11, 12, 13, 14],
        ),
    ];
    let mut all = Vec::new();
    for (event, length, bytes) in table {
        assert_eq!(event.bytes(), bytes);
        assert_eq!(bytes.len(), length);
        event.append_to(&mut all);
    }
    assert_eq!(all, table.map(|(.., bytes)| bytes).concat());

    // Where the gate itself sees an event begin and end: none is cut short.
    let answers = State::new(1, 1).unwrap().run(&all);
    assert_eq!(answers.len(), table.len());
    let read = |answer: &Answer| !matches!(answer, Answer::Refused(2 | 3));
    assert!(answers.iter().all(read), "{answers:?}");
}

#[test]
fn codes() {
    let sessions = [
        Session::Closed,
        Session::PreOpen,
        Session::Open,
        Session::Break,
        Session::PreClose,
    ];
    assert_eq!(sessions.map(Session::code), [0, 1, 2, 3, 4]);
    assert_eq!([Board::Main, Board::Foreign].map(Board::code), [0, 1]);
    assert_eq!([Side::Buy, Side::Sell].map(Side::code), [0, 1]);
    let types = [
        OrderType::Limit,
        OrderType::Ato,
        OrderType::Atc,
        OrderType::Mp,
    ];
    assert_eq!(types.map(OrderType::code), [0, 1, 2, 3]);
    let channels = [Channel::FrontOffice, Channel::Online, Channel::Dma];
    assert_eq!(channels.map(Channel::code), [0, 1, 2]);
    assert_eq!([Mark::Open, Mark::Cancelled].map(Mark::code), [1, 2]);

    for session in sessions {
        assert_eq!(Session::from_code(session.code().into()), Some(session));
    }
    assert_eq!(Session::from_code(5), None);
    assert_eq!(Mark::from_code(0), None);
}

/// The text form has its own encoder, that of the second implementation.
#[test]
fn as_the_text_form() {
    let table = [
        ("clock 09:55:00.250", Event::Clock { time: 35_700_250 }),
        ("session pre-open", session(Session::PreOpen)),
        (
            "setup 7 lot 50 first-day close 65.60 ipo 12.00",
            Event::Setup {
                security: 7,
                lot: 50,
                free: false,
                first_day: true,
                prior_close: 65_60,
                ipo: 12_00,
            },
        ),
        (
            "prices 300 main projected - last 50.00 bid 49.75 offer 50.25",
            Event::Prices {
                security: 300,
                board: Board::Main,
                projected: 0,
                last: 50_00,
                bid: 49_75,
                offer: 50_25,
            },
        ),
        (
            "order 255 no 70000 security 900 foreign sell atc x 100 online",
            Event::Order {
                customer: 255,
                number: 70_000,
                security: 900,
                board: Board::Foreign,
                side: Side::Sell,
                order_type: OrderType::Atc,
                channel: Channel::Online,
                price: 0,
                volume: 100,
            },
        ),
        (
            "cancel 3 no 5",
            Event::Cancel {
                customer: 3,
                number: 5,
            },
        ),
        (
            "match 3 no 5 x 100",
            Event::Match {
                customer: 3,
                number: 5,
                volume: 100,
            },
        ),
        (
            "rest 3 no 70000 at 50.25",
            Event::Rest {
                customer: 3,
                number: 70_000,
                price: 50_25,
            },
        ),
        (
            "figures 300 old 2 new 65535 dividend 1.50 subscription 10.00",
            Event::Figures {
                security: 300,
                dividend: 1_50,
                subscription: 10_00,
                old_shares: 2,
                new_shares: 65_535,
            },
        ),
    ];
    for (text, event) in table {
        assert_eq!(events::encode(text).unwrap(), event.bytes(), "{text}");
    }
}
