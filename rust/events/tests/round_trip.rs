//! Bytes to text and back, and text to bytes and back.

use events::{Event, Figures, Order, Prices, Setup, decode, encode, encode_each, line, split};
use second::encode as bytes_of;
use second::event::length;

/// Lines in the form that decoding gives, one for each thing a line can say.
const DAY: &str = "\
clock 00:00:00.000
clock 09:55:00.250
clock 23:59:59.999
clock 24:00:00.000
clock 1193:02:47.295
session closed
session pre-open
session open
session break
session pre-close
session 5
session 255
setup 0 lot 100 close - ipo -
setup 65535 lot 255 free first-day close 65.50 ipo 12.00
setup 1 lot 100 close 65.60 ipo 12.01
setup 1 lot 100 close 99999.99 ipo -
setup 1 lot 100 close 100000.00 ipo 100000.00
setup 1 lot 100 close 100000.01 ipo 100000.01
setup 3 lot 0 free 2 first-day 255 close 42949672.95 ipo 0.01
prices 0 main projected - last 50.00 bid 49.75 offer 50.25
prices 1 foreign projected 0.09 last - bid - offer 100000.00
prices 1023 board 2 projected 1.00 last 2.01 bid 3.00 offer 4.00
order 0 no 1 security 0 main buy limit 50.00 x 100 online
order 0 no 5 security 0 foreign sell atc x 100 dma
order 255 no 4294967295 security 1023 main sell ato x 4294967295 front
order 1 no 2 security 3 main buy mp x 0 online
order 1 no 2 security 3 main buy limit - x 100 online
order 1 no 2 security 3 main buy mp 50.00 x 100 online
order 65535 no 0 security 65535 board 2 side 2 type 4 x 100 channel 3
order 7 no 8 security 9 board 255 side 255 type 255 0.01 x 100 channel 255
cancel 0 no 1
cancel 65535 no 4294967295
match 0 no 1 x 100
match 65535 no 0 x 4294967295
rest 0 no 5 at 50.25
rest 0 no 1 at -
rest 65535 no 4294967295 at 42949672.95
rest 255 no 0 at 0.01
figures 0 old 2 new 3 dividend - subscription 10.00
figures 65535 old 65535 new 65535 dividend 42949672.95 subscription 42949672.95
figures 7 old 0 new 0 dividend - subscription -
figures 7 old 1 new 0 dividend 0.01 subscription 12.01
";

#[test]
fn decoded_lines_come_back() {
    let bytes = encode(DAY).unwrap();
    assert_eq!(decode(&bytes).unwrap(), DAY);
    let each = encode_each(DAY).unwrap();
    assert_eq!(each.len(), DAY.lines().count());
    assert_eq!(each.concat(), bytes);
    for (event, text) in each.iter().zip(DAY.lines()) {
        assert_eq!(line(event), text);
    }
}

#[test]
fn lines_mean_what_they_say() {
    let table = [
        ("clock 09:55:00.250", Event::Clock { time: 35_700_250 }),
        (
            "setup 7 lot 50 first-day close 65.50 ipo 12.00",
            Event::Setup(Setup {
                security: 7,
                lot: 50,
                free: 0,
                first_day: 1,
                prior_close: 65_50,
                ipo: 12_00,
            }),
        ),
        (
            "setup 8 lot 100 close 65.60",
            Event::Setup(Setup {
                security: 8,
                lot: 100,
                free: 0,
                first_day: 0,
                prior_close: 65_60,
                ipo: 0,
            }),
        ),
        (
            "prices 0 foreign projected - last 50.00 bid 49.75 offer 50.25",
            Event::Prices(Prices {
                security: 0,
                board: 1,
                projected: 0,
                last: 50_00,
                bid: 49_75,
                offer: 50_25,
            }),
        ),
        (
            "order 3 no 5 security 9 foreign sell limit 0.05 x 100 dma",
            Event::Order(Order {
                customer: 3,
                number: 5,
                security: 9,
                board: 1,
                side: 1,
                order_type: 0,
                channel: 2,
                price: 5,
                volume: 100,
            }),
        ),
        (
            "match 3 no 5 x 100",
            Event::Match {
                customer: 3,
                number: 5,
                volume: 100,
            },
        ),
        (
            "rest 3 no 5 at 50.25",
            Event::Rest {
                customer: 3,
                number: 5,
                price: 50_25,
            },
        ),
        (
            "rest 3 no 5 at -",
            Event::Rest {
                customer: 3,
                number: 5,
                price: 0,
            },
        ),
        (
            "figures 9 old 2 new 3 dividend 0.05 subscription 10.00",
            Event::Figures(Figures {
                security: 9,
                dividend: 5,
                subscription: 10_00,
                old: 2,
                new: 3,
            }),
        ),
    ];
    for (text, event) in table {
        assert_eq!(encode(text).unwrap(), bytes_of::event(&event), "{text}");
    }
}

#[test]
fn what_a_person_may_leave_out() {
    let table = [
        ("clock 09:55:00", "clock 09:55:00.000"),
        ("setup 0 lot 100", "setup 0 lot 100 close - ipo -"),
        (
            "setup 0 lot 100 ipo 1.00 first-day free",
            "setup 0 lot 100 free first-day close - ipo 1.00",
        ),
        (
            "setup 0 lot 100 free 0 close -",
            "setup 0 lot 100 close - ipo -",
        ),
        (
            "prices 0 main offer 2.00 last 1.00",
            "prices 0 main projected - last 1.00 bid - offer 2.00",
        ),
        (
            "figures 0 old 2 new 3",
            "figures 0 old 2 new 3 dividend - subscription -",
        ),
        (
            "figures 0 old 2 new 3 subscription 10.00 dividend 0.50",
            "figures 0 old 2 new 3 dividend 0.50 subscription 10.00",
        ),
        ("session 2", "session open"),
        ("  cancel\t0  no 1   # not wanted any more", "cancel 0 no 1"),
    ];
    for (written, read) in table {
        let bytes = encode(written).unwrap();
        assert_eq!(decode(&bytes).unwrap(), format!("{read}\n"));
    }
    assert_eq!(encode("\n# nothing\n   \n#\n").unwrap(), []);
}

#[test]
fn bytes_as_they_are() {
    assert_eq!(encode("bytes 0a ff 00").unwrap(), [10, 255, 0]);
    assert_eq!(line(&[10, 255, 0]), "bytes 0a ff 00");
    assert_eq!(line(&[9, 255, 0]), "bytes 09 ff 00");
    assert_eq!(line(&[2]), "bytes 02");
    assert_eq!(line(&[2, 2, 2]), "bytes 02 02 02");
    assert_eq!(line(&[]), "bytes");
    assert_eq!(encode_each("bytes").unwrap(), [vec![]]);
}

/// What cannot be read takes all that is left.
#[test]
fn where_events_end() {
    let rest = [8, 0, 0, 5, 0, 0, 0, 161, 19, 0, 0];
    let then_open = [&rest[..], &[2, 2]].concat();
    let table: [(&[u8], &[&[u8]]); 5] = [
        (&[], &[]),
        (&then_open, &[&rest, &[2, 2]]),
        (&[2, 2, 2, 1], &[&[2, 2], &[2, 1]]),
        (&[2, 2, 2], &[&[2, 2], &[2]]),
        (&[2, 2, 31, 2, 2], &[&[2, 2], &[31, 2, 2]]),
    ];
    for (bytes, events) in table {
        assert_eq!(split(bytes).collect::<Vec<_>>(), events);
    }
}

#[test]
fn every_whole_event_has_a_line() {
    let mut random = Random(1);
    for round in 0..20_000 {
        let mut bytes = Vec::new();
        for _ in 0..8 {
            let kind = 1 + (random.next() % 9) as u8;
            bytes.push(kind);
            for _ in 1..length(kind).unwrap() {
                // Small bytes, for the codes that have words.
                let byte = random.next() as u8;
                bytes.push(if round % 2 == 0 { byte } else { byte % 6 });
            }
        }
        let text = decode(&bytes).unwrap();
        assert_eq!(text.lines().count(), 8);
        assert_eq!(encode(&text).unwrap(), bytes, "{text}");
    }
}

/// Every value of every byte of every kind, the others 0 or 1.
#[test]
fn every_byte_of_every_event() {
    for kind in 1..=9 {
        for place in 1..length(kind).unwrap() {
            for (value, others) in (0..=255).flat_map(|value| [(value, 0), (value, 1)]) {
                let mut bytes = vec![others; length(kind).unwrap()];
                bytes[0] = kind;
                bytes[place] = value;
                let text = decode(&bytes).unwrap();
                assert_eq!(encode(&text).unwrap(), bytes, "{text}");
            }
        }
    }
}

struct Random(u64);

impl Random {
    fn next(&mut self) -> u64 {
        self.0 ^= self.0 << 13;
        self.0 ^= self.0 >> 7;
        self.0 ^= self.0 << 17;
        self.0 >> 11
    }
}
