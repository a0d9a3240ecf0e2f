//! The ladder: legal prices, their positions, and the positions nearest to the
//! prices between them.

use guvontsira::{
    Answer, Board, Channel, Event, MAX_POSITION, MAX_PRICE, Nearest, OrderType, Session, Side,
    State, nearest, position, price,
};

#[test]
fn legal_prices() {
    assert_eq!(position(1), Some(1));
    assert_eq!(position(1_99), Some(199));
    assert_eq!(position(MAX_PRICE), Some(MAX_POSITION));
    assert_eq!(position(0), None);
    assert_eq!(position(2_01), None);
    assert_eq!(position(MAX_PRICE + 2_00), None);
    assert_eq!(price(MAX_POSITION), Some(MAX_PRICE));
    assert_eq!(price(0), None);
    assert_eq!(price(MAX_POSITION + 1), None);
}

fn between(lower: u32, upper: u32) -> Option<Nearest> {
    let legal = lower == upper;
    Some(Nearest {
        lower,
        upper,
        legal,
    })
}

#[test]
fn prices_between_two_steps() {
    assert_eq!(nearest(65_60), between(762, 763));
    assert_eq!(nearest(65_50), between(762, 762));
    assert_eq!(nearest(65_51), between(762, 763));
    assert_eq!(nearest(65_74), between(762, 763));
    assert_eq!(nearest(65_75), between(763, 763));
    assert_eq!(nearest(1), between(1, 1));
    assert_eq!(nearest(99_999_99), between(51_099, 51_100));
    assert_eq!(nearest(100_000_00), between(51_100, 51_100));
    for none in [0, 100_000_01, 100_002_00, u32::MAX] {
        assert_eq!(nearest(none), None);
    }
}

/// Every price that there is, beside the legal prices in their order.
#[test]
fn every_price() {
    let legal: Vec<u32> = (1..).map_while(price).collect();
    assert_eq!(legal.len(), MAX_POSITION as usize);
    assert!(legal.is_sorted_by(|low, high| low < high));
    for (pair, lower) in legal.windows(2).zip(1..) {
        assert_eq!(nearest(pair[0]), between(lower, lower));
        assert_eq!(position(pair[0]), Some(lower));
        for price in pair[0] + 1..pair[1] {
            assert_eq!(nearest(price), between(lower, lower + 1), "{price}");
            assert_eq!(position(price), None, "{price}");
        }
    }
    assert_eq!(legal.first(), Some(&1));
    assert_eq!(legal.last(), Some(&MAX_PRICE));
}

fn setup(prior_close: u32, ipo: u32) -> Event {
    Event::Setup {
        security: 0,
        lot: 100,
        free: false,
        first_day: false,
        prior_close,
        ipo,
    }
}

fn buy(number: u32, price: u32) -> Event {
    Event::Order {
        customer: 0,
        number,
        security: 0,
        board: Board::Main,
        side: Side::Buy,
        order_type: OrderType::Limit,
        channel: Channel::Online,
        price,
        volume: 100,
    }
}

/// Request 2 of paper 02.
#[test]
fn an_adjusted_prior_close() {
    let mut state = State::new(1, 1).unwrap();
    let session = Session::PreOpen;
    assert_eq!(state.send(&Event::Session { session }), Answer::Ok);
    assert_eq!(state.send(&setup(65_60, 0)), Answer::Ok);
    assert_eq!(state.security(0).unwrap().prior_close, 65_60);
    let limits = [
        (68_00, Answer::Accept),
        (68_25, Answer::Warn10),
        (63_25, Answer::Accept),
        (63_00, Answer::Warn10),
        (65_60, Answer::Refused(6)),
    ];
    for ((price, answer), number) in limits.into_iter().zip(1..) {
        assert_eq!(state.send(&buy(number, price)), answer, "{price}");
    }
    let last = Event::Prices {
        security: 0,
        board: Board::Main,
        projected: 0,
        last: 65_60,
        bid: 0,
        offer: 0,
    };
    assert_eq!(state.send(&last), Answer::Refused(6));
}

#[test]
fn the_last_prior_close() {
    let mut state = State::new(1, 1).unwrap();
    assert_eq!(state.send(&setup(MAX_PRICE + 1, 0)), Answer::Refused(6));
    assert_eq!(state.send(&setup(0, MAX_PRICE + 1)), Answer::Refused(6));
    assert_eq!(state.send(&setup(MAX_PRICE - 1, MAX_PRICE)), Answer::Ok);
    // The security's fourth word.
    for (prior_close, answer) in [
        (MAX_PRICE, Answer::Ok),
        (MAX_PRICE + 1, Answer::Refused(8)),
        (u32::MAX, Answer::Refused(8)),
    ] {
        let mut words = state.words().to_vec();
        words[4 + 3] = prior_close;
        let mut changed = State::from_words(words);
        assert_eq!(changed.handle(&[2, 2]), answer, "{prior_close}");
        assert_eq!(changed.security(0).unwrap().prior_close, prior_close);
    }
}
