//! The wrapper's own behaviour: its types, its counts and its refusals.

use guvontsira::{
    Answer, Board, Channel, Event, Figures, Mark, OrderType, Prices, Range, Row, Rule, Security,
    Session, Side, State, Time, VERSION, library,
};

fn answers(state: &mut State, text: &str) -> Vec<String> {
    let events = events::encode_each(text).unwrap();
    events
        .iter()
        .map(|event| state.handle(event).to_string())
        .collect()
}

const PAPER: &str = "\
session open
prices 0 main projected - last 50.00 bid 49.75 offer 50.25
order 0 no 1 security 0 main buy limit 50.00 x 100 online
order 0 no 2 security 0 main sell limit 50.00 x 100 online
cancel 0 no 1
cancel 0 no 1
";

#[test]
fn the_example_of_the_paper() {
    let mut state = State::new(8, 16).unwrap();
    assert_eq!(
        answers(&mut state, PAPER),
        ["ok", "ok", "accept", "reject W", "ok", "refused 10"]
    );
    let mut other = State::new(8, 16).unwrap();
    assert_eq!(
        other.run(&events::encode(PAPER).unwrap()),
        [
            Answer::Ok,
            Answer::Ok,
            Answer::Accept,
            Answer::Reject(Rule::W),
            Answer::Ok,
            Answer::Refused(10),
        ]
    );
    assert!(state == other);
}

#[test]
fn counts_out_of_range() {
    for (customers, securities) in [(0, 1), (1, 0), (257, 1), (1, 1_025), (u32::MAX, u32::MAX)] {
        let refused = State::new(customers, securities).unwrap_err();
        assert_eq!(refused.number, 1);
        assert_eq!(refused.to_string(), "refused 1");
    }
    let largest = State::new(256, 1_024).unwrap();
    assert_eq!(largest.words().len(), 91_908);
    assert_eq!(format!("{largest:?}"), "State { word_count: 91908, .. }");
}

#[test]
fn desks() {
    let mut state = State::new(2, 3).unwrap();
    answers(
        &mut state,
        "\
clock 09:00:00
session pre-close
order 1 no 7 security 2 foreign sell limit 50.00 x 300 online
order 1 no 8 security 0 main buy atc x 200 dma
order 1 no 9 security 0 main buy atc x 150 dma
match 1 no 7 x 100
cancel 1 no 7
",
    );
    let desk = state.desk(1).unwrap();
    assert_eq!((desk.accepted, desk.warned, desk.rejected), (2, 0, 1));
    assert_eq!(
        desk.rows,
        [
            Row {
                mark: Mark::Cancelled,
                number: 7,
                security: 2,
                board: Board::Foreign,
                side: Side::Sell,
                order_type: OrderType::Limit,
                price: 50_00,
                volume: 200,
                cancel_time: Time {
                    milliseconds: 32_400_000,
                },
            },
            Row {
                mark: Mark::Open,
                number: 8,
                security: 0,
                board: Board::Main,
                side: Side::Buy,
                order_type: OrderType::Atc,
                price: 0,
                volume: 200,
                cancel_time: Time { milliseconds: 0 },
            },
        ]
    );
    assert!(state.desk(0).unwrap().rows.is_empty());
    assert_eq!(state.desk(2), None);
    assert_eq!(state.desk(u32::MAX), None);
}

/// Request 1 of paper 02: an MP order's row, and the limit that a rest makes it.
#[test]
fn what_is_left_of_an_mp_order() {
    let mut state = State::new(2, 3).unwrap();
    let entered = "\
session open
prices 2 foreign bid 49.75 offer 50.25
order 1 no 6 security 2 foreign sell limit 52.00 x 100 online
order 1 no 7 security 2 foreign buy mp x 300 dma
order 1 no 8 security 2 main sell limit 52.00 x 100 online
match 1 no 7 x 100
";
    let entered = answers(&mut state, entered);
    assert_eq!(entered, ["ok", "ok", "accept", "accept", "accept", "ok"]);
    let mp = Row {
        mark: Mark::Open,
        number: 7,
        security: 2,
        board: Board::Foreign,
        side: Side::Buy,
        order_type: OrderType::Mp,
        price: 0,
        volume: 200,
        cancel_time: Time { milliseconds: 0 },
    };
    let before = state.desk(1).unwrap();
    assert_eq!(before.rows[1], mp);

    let rest = |number, price| Event::Rest {
        customer: 1,
        number,
        price,
    };
    assert_eq!(state.send(&rest(7, 50_51)), Answer::Refused(6));
    assert_eq!(state.send(&rest(7, 0)), Answer::Refused(6));
    assert_eq!(state.send(&rest(6, 50_50)), Answer::Refused(10));
    assert_eq!(state.desk(1), Some(before.clone()));
    assert_eq!(state.send(&rest(7, 50_50)), Answer::Ok);
    let mut after = before;
    after.rows[1] = Row {
        order_type: OrderType::Limit,
        price: 50_50,
        ..mp
    };
    assert_eq!(state.desk(1), Some(after));
    assert_eq!(state.send(&rest(7, 50_75)), Answer::Refused(10));
}

#[test]
fn the_release() {
    assert_eq!(library::version(), VERSION);
}

const UNKNOWN: Prices = Prices {
    projected: 0,
    last: 0,
    bid: 0,
    offer: 0,
};

#[test]
fn a_fresh_market() {
    let state = State::new(2, 3).unwrap();
    assert_eq!(state.clock(), Some(Time { milliseconds: 0 }));
    assert_eq!(state.session(), Some(Session::Closed));
    for security in 0..3 {
        let fresh = Security {
            lot: 100,
            free: false,
            first_day: false,
            prior_close: 0,
            ipo: 0,
            main: UNKNOWN,
            foreign: UNKNOWN,
            figures: None,
        };
        assert_eq!(state.security(security), Some(fresh));
        assert_eq!(state.range(security), None);
    }
    assert_eq!(state.security(3), None);
    assert_eq!(state.security(u32::MAX), None);
}

#[test]
fn a_market() {
    let mut state = State::new(2, 3).unwrap();
    answers(
        &mut state,
        "\
clock 16:30:00.250
session pre-close
setup 2 lot 50 free close 65.60 ipo 12.01
setup 1 lot 1 first-day
prices 2 main projected 50.00 last 49.75 bid 49.50 offer 50.25
prices 2 foreign projected 40.00 last 39.75 bid 39.50 offer 40.25
",
    );
    let time = Time {
        milliseconds: 59_400_250,
    };
    assert_eq!(state.clock(), Some(time));
    assert_eq!(state.session(), Some(Session::PreClose));
    let security = state.security(2).unwrap();
    assert_eq!(
        (security.lot, security.free, security.first_day),
        (50, true, false)
    );
    assert_eq!((security.prior_close, security.ipo), (65_60, 12_01));
    let main = Prices {
        projected: 50_00,
        last: 49_75,
        bid: 49_50,
        offer: 50_25,
    };
    let foreign = Prices {
        projected: 40_00,
        last: 39_75,
        bid: 39_50,
        offer: 40_25,
    };
    assert_eq!((security.main, security.foreign), (main, foreign));
    assert_eq!(
        [Board::Main, Board::Foreign].map(|board| security.prices(board)),
        [main, foreign]
    );
    let other = state.security(1).unwrap();
    assert_eq!((other.lot, other.free, other.first_day), (1, false, true));

    // Customers, securities, clock and session; then lot and flags of security 2.
    for (place, word) in [(0, 3), (1, 4), (2, 86_400_000), (3, 5)] {
        let mut words = state.words().to_vec();
        words[place] = word;
        let mut damaged = State::from_words(words);
        assert_eq!(damaged.handle(&[2, 2]), Answer::Refused(1));
        assert_eq!((damaged.clock(), damaged.session()), (None, None));
        assert_eq!((damaged.security(0), damaged.desk(0)), (None, None));
    }
    for (place, word) in [(0, 0), (0, 10), (0, 256 + 50), (1, 2), (2, 2)] {
        let mut words = state.words().to_vec();
        words[4 + 17 * 2 + place] = word;
        let mut damaged = State::from_words(words);
        assert_eq!(damaged.security(2), None);
        assert_eq!(damaged.security(1), Some(other));
        assert_eq!(damaged.clock(), Some(time));
        assert_eq!(damaged.handle(&[2, 2]), Answer::Refused(8));
    }
}

/// Request 3 of paper 02: figures, the range that they give, and the setup that
/// clears them.
#[test]
fn ranges() {
    let mut state = State::new(2, 3).unwrap();
    let range = |floor, ceiling| Some(Range { floor, ceiling });
    answers(&mut state, "session open\nsetup 1 lot 100 close 150.00\n");
    assert_eq!(state.range(1), range(105_00, 195_00));
    assert_eq!(state.security(1).unwrap().figures, None);

    let figures = |dividend, old_shares| Event::Figures {
        security: 1,
        dividend,
        subscription: 10_00,
        old_shares,
        new_shares: 3,
    };
    assert_eq!(state.send(&figures(0, 0)), Answer::Refused(13));
    assert_eq!(state.send(&figures(150_00, 2)), Answer::Refused(13));
    assert_eq!(state.range(1), range(105_00, 195_00));
    assert_eq!(state.send(&figures(0, 2)), Answer::Ok);
    let set = Figures {
        dividend: 0,
        subscription: 10_00,
        old_shares: 2,
        new_shares: 3,
    };
    assert_eq!(state.security(1).unwrap().figures, Some(set));
    assert_eq!(state.range(1), range(46_25, 85_75));
    let limits = "\
order 0 no 1 security 1 main buy limit 85.75 x 100 front
order 0 no 2 security 1 main buy limit 86.00 x 100 front
order 0 no 3 security 1 foreign buy limit 86.00 x 100 front
";
    assert_eq!(
        answers(&mut state, limits),
        ["accept", "reject C", "accept"]
    );
    assert_eq!((state.range(0), state.range(3)), (None, None));

    answers(&mut state, "setup 1 lot 100 close 0.99\n");
    assert_eq!(state.security(1).unwrap().figures, None);
    assert_eq!(state.range(1), range(1, 1_98));
    answers(&mut state, "setup 1 lot 100 free close 150.00\n");
    assert_eq!(state.range(1), None);
}

/// A base of 3/2 satang: the floor is above the ceiling.
#[test]
fn a_range_without_a_price() {
    let mut state = State::new(1, 1).unwrap();
    let day = "\
session open
setup 0 lot 100 close 1.00
figures 0 old 1 new 1 dividend 0.97
order 0 no 1 security 0 main buy limit 0.01 x 100 front
order 0 no 1 security 0 main buy limit 0.02 x 100 front
";
    assert_eq!(
        answers(&mut state, day),
        ["ok", "ok", "ok", "reject C", "reject C"]
    );
    let empty = Range {
        floor: 2,
        ceiling: 1,
    };
    assert_eq!(state.range(0), Some(empty));
}

/// Dividend, subscription, old and new shares as no figures event could have set
/// them: the record is damaged and has no range, and where the words still have
/// their types they can be read.
#[test]
fn damaged_figures() {
    let mut state = State::new(1, 2).unwrap();
    answers(
        &mut state,
        "setup 1 lot 100 close 150.00\nfigures 1 old 2 new 3 subscription 10.00\n",
    );
    let table = [
        (13, 150_00, true),
        (15, 0, true),
        (15, 65_536, false),
        (16, 65_536, false),
        (16, u32::MAX, false),
    ];
    for (place, word, is_read) in table {
        let mut words = state.words().to_vec();
        words[4 + 17 + place] = word;
        let mut damaged = State::from_words(words);
        assert_eq!(damaged.range(1), None, "{place}: {word}");
        assert_eq!(damaged.security(1).is_some(), is_read, "{place}: {word}");
        assert_eq!(damaged.handle(&[2, 2]), Answer::Refused(8));
    }
    let mut short = State::from_words(state.words()[1..].to_vec());
    assert_eq!(short.range(1), None);
    assert_eq!(short.handle(&[2, 2]), Answer::Refused(1));
}

/// By its fields an event gets the answer and leaves the words that it does by
/// its bytes.
#[test]
fn sent_and_handled() {
    let order = |number, side| Event::Order {
        customer: 0,
        number,
        security: 0,
        board: Board::Main,
        side,
        order_type: OrderType::Limit,
        channel: Channel::Online,
        price: 50_00,
        volume: 100,
    };
    let cancel = Event::Cancel {
        customer: 0,
        number: 1,
    };
    let day = [
        Event::Session {
            session: Session::Open,
        },
        Event::Prices {
            security: 0,
            board: Board::Main,
            projected: 0,
            last: 50_00,
            bid: 49_75,
            offer: 50_25,
        },
        order(1, Side::Buy),
        order(2, Side::Sell),
        cancel,
        cancel,
    ];
    let mut sent = State::new(8, 16).unwrap();
    let mut handled = State::new(8, 16).unwrap();
    let answers = day.map(|event| sent.send(&event).to_string());
    assert_eq!(
        answers,
        ["ok", "ok", "accept", "reject W", "ok", "refused 10"]
    );
    assert_eq!(
        answers,
        day.map(|event| handled.handle(&event.bytes()).to_string())
    );
    assert!(sent == handled);
}

#[test]
fn words_kept_and_damaged() {
    let mut state = State::new(2, 3).unwrap();
    answers(&mut state, PAPER);
    let kept = State::from_words(state.words().to_vec());
    assert!(kept == state);
    assert_eq!(kept.desk(0), state.desk(0));

    for words in [vec![], vec![1], vec![7; 100], state.words()[1..].to_vec()] {
        let mut damaged = State::from_words(words);
        assert_eq!(damaged.handle(&[2, 2]), Answer::Refused(1));
        assert_eq!(damaged.run(&[2, 2, 2]), [Answer::Refused(1); 2]);
        assert_eq!(damaged.desk(0), None);
    }
    // Board and type of customer 0's first row.
    for (place, code) in [(3, 2), (5, 4)] {
        let mut words = state.words().to_vec();
        words[4 + 17 * 3 + 3 + place] = code;
        let mut damaged = State::from_words(words);
        assert_eq!(damaged.desk(0), None);
        assert!(damaged.desk(1).is_some());
        assert_eq!(damaged.handle(&[2, 2]), Answer::Refused(8));
    }
}

/// Type 3 is in its list, but a cancelled row is no MP row, nor one with a price.
#[test]
fn a_row_that_cannot_be_mp() {
    let mut state = State::new(2, 3).unwrap();
    answers(&mut state, PAPER);
    let mut words = state.words().to_vec();
    words[4 + 17 * 3 + 3 + 5] = 3;
    let mut damaged = State::from_words(words);
    assert_eq!(damaged.desk(0).unwrap().rows[0].order_type, OrderType::Mp);
    assert_eq!(damaged.handle(&[2, 2]), Answer::Refused(8));
}

#[test]
fn runs_of_any_length() {
    let mut state = State::new(1, 1).unwrap();
    assert_eq!(state.run(&[]), []);
    assert_eq!(state.run(&[2]), [Answer::Refused(2)]);
    assert_eq!(state.run(&[9]), [Answer::Refused(2)]);
    assert_eq!(state.run(&[10]), [Answer::Refused(3)]);
    let shortest = [2, 1].repeat(1_000);
    assert_eq!(state.run(&shortest).len(), 1_000);
    let cut = &shortest[..1_999];
    assert_eq!(state.run(cut).len(), 1_000);
    assert_eq!(state.run(cut).last(), Some(&Answer::Refused(2)));

    let mut numbers = [77; 4];
    let handled = library::run(&mut state.words().to_vec(), &[2, 1, 2, 1, 10], &mut numbers);
    assert_eq!((handled, numbers), (3, [0, 0, 3, 77]));
    let handled = library::run(&mut state.words().to_vec(), &shortest, &mut numbers[..2]);
    assert_eq!(handled, 2);
}
