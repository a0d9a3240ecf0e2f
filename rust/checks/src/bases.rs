//! States to damage, and events to hand to them.

use second::gate;
use second::state::Header;

use crate::layout::fresh;

pub const CUSTOMERS: u32 = 2;
pub const SECURITIES: u32 = 3;

/// An open session: open rows on both boards and sides, and cancelled ones; MP
/// rows, one of them a limit by now. Security 2 has a range from figures: 231.00
/// to 428.00.
const OPEN: &str = "\
clock 10:00:00
session open
setup 0 lot 100 free close 50.00
setup 1 lot 50 free first-day close 10.00 ipo 10.01
setup 2 lot 1 close 400.00
figures 2 old 2 new 1 dividend 5.00 subscription 200.00
prices 0 main last 50.00 bid 49.75 offer 50.25
prices 0 foreign last 51.00 bid 50.75 offer 51.25
prices 1 main last 10.00
order 0 no 1 security 0 main buy limit 50.00 x 60000 online
order 0 no 2 security 0 main buy limit 49.75 x 60400 online
order 0 no 3 security 0 foreign sell limit 51.00 x 200 dma
order 0 no 4 security 2 main sell limit 400.00 x 7 front
order 1 no 1 security 1 main sell limit 14.00 x 50 online
order 1 no 2 security 1 main sell limit 13.00 x 50 online
order 0 no 5 security 0 main buy mp x 300 front
order 0 no 6 security 0 foreign sell mp x 400 online
order 1 no 3 security 0 main sell mp x 500 dma
match 0 no 6 x 100
rest 0 no 6 at 50.50
cancel 0 no 2
cancel 1 no 2
clock 10:00:30
cancel 0 no 4
";

/// Before the opening: ATO rows, projected prices. Of security 2 there is only a
/// prior close, between two steps, with figures.
const PRE_OPEN: &str = "\
clock 09:45:00
session pre-open
setup 0 lot 100 free first-day close 24.50 ipo 24.00
setup 2 lot 100 close 65.60
figures 2 old 10 new 1 subscription 30.00
prices 0 main projected 24.50 last 24.60 bid 24.40 offer 24.60
prices 0 foreign projected 25.00
prices 1 main projected 100.00
order 0 no 1 security 0 main buy ato x 100 online
order 0 no 2 security 0 main buy limit 24.40 x 500 online
order 0 no 3 security 0 foreign sell ato x 100 dma
order 0 no 4 security 1 main sell limit 100.50 x 100 front
cancel 0 no 2
clock 09:46:00.001
order 1 no 1 security 1 main sell ato x 100 front
";

/// A desk with 32 rows; every third of them is cancelled, and of the others
/// every fifth is of an MP order. The best prices are beside those of the rows.
/// Of the other securities one has a prior close below 1.00 and one just that.
fn full() -> String {
    let mut text = String::from(
        "\
clock 14:00:00
session open
prices 0 main bid 50.00 offer 60.00
setup 1 lot 100 close 0.99
figures 1 old 1 new 65535 dividend 0.98
setup 2 lot 100 close 1.00
",
    );
    for number in 1..=32 {
        let is_cancelled = number % 3 == 0;
        let satang = 50_00 + 25 * number;
        let of_type = match number % 5 == 0 && !is_cancelled {
            true => "mp".into(),
            false => format!("limit {}.{:02}", satang / 100, satang % 100),
        };
        text += &format!("order 0 no {number} security 0 main buy {of_type} x 60000 online\n");
        if is_cancelled {
            text += &format!("clock 14:00:{number:02}\ncancel 0 no {number}\n");
        }
    }
    text
}

/// Each with its name.
pub fn bases() -> Vec<(&'static str, Vec<u32>)> {
    vec![
        ("open session", after(OPEN)),
        ("pre-open session", after(PRE_OPEN)),
        ("full desk", after(&full())),
        ("fresh state", after("")),
    ]
}

/// The state that these lines leave; none of them may be turned back.
fn after(text: &str) -> Vec<u32> {
    let mut words = fresh(CUSTOMERS, SECURITIES);
    for event in lines(text) {
        let number = crate::comparison::number(gate::handle(&mut words, &event));
        assert!(
            number == 0 || (100..200).contains(&number),
            "{}",
            events::line(&event)
        );
    }
    words
}

fn lines(text: &str) -> Vec<Vec<u8>> {
    events::encode_each(text).unwrap_or_else(|wrong| panic!("{wrong}"))
}

/// Events for a base, most of them good: at least one of each kind for each
/// record that an event of this kind names. Clock and session, which name none,
/// come as they are and as others.
pub fn events_for(words: &[u32]) -> Vec<Vec<u8>> {
    let header = Header::read(words).expect("a base is whole");
    let session = header.session as u8;
    let clock = second::encode::clock;
    let mut events = vec![
        clock(header.clock),
        clock((header.clock + 60_001).min(86_399_999)),
        second::encode::session(session),
        second::encode::session((session + 1) % 5),
    ];
    events.extend(lines(
        "\
setup 0 lot 100 free close 50.00
setup 1 lot 1 first-day close 10.00 ipo 10.01
setup 2 lot 50 close 65.60
figures 0 old 2 new 3 dividend 1.00 subscription 10.00
figures 1 old 1 new 0 dividend 0.01
figures 2 old 65535 new 65535 dividend 0.50 subscription 42949672.95
figures 2 old 0 new 1
figures 3 old 0 new 1
figures 2 old 1 new 1 dividend 42949672.95
prices 0 main projected 50.00 last 50.00
prices 1 foreign offer 10.00
prices 2 main last 400.00 bid 398.00
order 0 no 99 security 0 main sell limit 50.00 x 60000 online
order 0 no 99 security 0 main buy limit 49.75 x 60400 online
order 0 no 99 security 0 main buy mp x 100 online
order 0 no 99 security 0 main sell ato x 100 online
order 0 no 1 security 0 main buy limit 50.00 x 100 front
order 0 no 99 security 1 foreign sell limit 10.00 x 100 dma
order 1 no 99 security 1 main buy limit 14.00 x 100 online
order 1 no 99 security 2 main sell limit 400.00 x 100 dma
order 1 no 99 security 2 main buy limit 68.00 x 100 online
order 1 no 99 security 2 main buy limit 63.00 x 100 dma
order 1 no 99 security 2 main buy limit 1.30 x 100 dma
order 1 no 99 security 1 main sell limit 2.00 x 100 front
order 0 no 99 security 0 main buy limit 50.00 x 0 dma
cancel 0 no 1
cancel 0 no 2
cancel 1 no 1
match 0 no 1 x 100
match 0 no 99 x 1
match 1 no 1 x 50
match 1 no 1 x 20000001
match 0 no 5 x 300
cancel 0 no 5
rest 0 no 5 at 50.50
rest 0 no 6 at 50.50
rest 0 no 1 at 50.50
rest 0 no 99 at 50.50
rest 1 no 3 at 49.50
rest 1 no 1 at 13.00
rest 0 no 5 at 50.51
",
    ));
    events
}

#[cfg(test)]
mod tests {
    use second::event::{Event, decode};

    use super::*;

    /// The kind of an event, and a record that it names.
    fn named(event: &[u8]) -> Vec<(u8, &'static str, u32)> {
        let names = match decode(event).unwrap() {
            Event::Clock { .. } | Event::Session { .. } => vec![],
            Event::Setup(setup) => vec![("security", setup.security)],
            Event::Prices(prices) => vec![("security", prices.security)],
            Event::Figures(figures) => vec![("security", figures.security)],
            Event::Order(order) => {
                vec![("customer", order.customer), ("security", order.security)]
            }
            Event::Cancel { customer, .. }
            | Event::Match { customer, .. }
            | Event::Rest { customer, .. } => vec![("customer", customer)],
        };
        let of_kind = |(record, name): (_, u16)| (event[0], record, name.into());
        names.into_iter().map(of_kind).collect()
    }

    #[test]
    fn every_kind_for_every_record_it_names() {
        for (_, base) in bases() {
            let all: Vec<_> = events_for(&base).iter().flat_map(|e| named(e)).collect();
            for security in 0..SECURITIES {
                for kind in [3, 4, 5, 9] {
                    assert!(all.contains(&(kind, "security", security)));
                }
            }
            for customer in 0..CUSTOMERS {
                for kind in [5, 6, 7, 8] {
                    assert!(all.contains(&(kind, "customer", customer)));
                }
            }
        }
    }
}
