//! Random histories over every desk of the state: most desks have rows, and ATO
//! or ATC rows when an auction ends, and some far from the first are full. Where
//! an open session follows, most desks have MP rows when it ends.

use second::codes::{OrderType, Session};
use second::state::ROWS;

use crate::mixture::EVERY_DESK;
use crate::random::Random;
use crate::writer::Writer;

/// A session change reads every desk and is dear, so a history has at most six:
/// an auction is entered, now and then announced again, and left.
const AUCTIONS: [[Session; 2]; 4] = [
    [Session::PreOpen, Session::PreClose],
    [Session::PreOpen, Session::PreOpen],
    [Session::PreClose, Session::PreOpen],
    [Session::PreClose, Session::PreClose],
];
const FULL_DESKS: usize = 4;
/// What a full desk is handed at most; not all of it is accepted.
const MOST_ORDERS: usize = 2 * ROWS;
/// At most so many setups, and as many prices, before the first session.
const MARKET_EVENTS: u32 = 30;

/// Customers and securities of the state.
pub fn sizes(random: &mut Random) -> (u32, u32) {
    let customers = match random.below(4) {
        0 => 256,
        1 => 1 + random.below(256),
        _ => 8 + random.below(57),
    };
    let securities = match random.below(8) {
        0 => 1_024,
        1 => 1 + random.below(1_024),
        _ => 1 + random.below(40),
    };
    (customers, securities)
}

pub struct Wide {
    random: Random,
    pub writer: Writer,
    pub events: Vec<Vec<u8>>,
    /// The customers whose desks were filled.
    pub full: Vec<u16>,
}

impl Wide {
    /// A whole history from a fresh state of these counts.
    pub fn history(mut random: Random, customers: u32, securities: u32) -> Wide {
        let writer = Writer::of_all(
            Random::new(random.next()),
            &EVERY_DESK,
            customers,
            securities,
        );
        let mut wide = Wide {
            random,
            writer,
            events: Vec::new(),
            full: Vec::new(),
        };
        for _ in 0..MARKET_EVENTS.min(2 * securities) {
            wide.events.push(wide.writer.new_setup());
            wide.events.push(wide.writer.new_figures());
            wide.events.push(wide.writer.new_prices());
        }
        for auction in wide.random.pick(&AUCTIONS) {
            wide.auction(auction);
        }
        wide
    }

    /// An auction from its beginning, and what follows it.
    fn auction(&mut self, auction: Session) {
        self.session(auction);
        // The change of session took the projected prices away.
        for _ in 0..8 {
            self.events.push(self.writer.new_prices());
        }
        self.rows_on_most_desks(auction);
        self.full_desks(auction);
        self.any_events();
        if self.random.once_in(3) {
            self.session(auction);
        }
        let others = self.other_sessions(auction);
        let next = self.random.pick(&others);
        self.session(next);
        if next == Session::Open {
            self.rows_on_most_desks(next);
        }
        self.any_events();
    }

    fn session(&mut self, session: Session) {
        self.events.push(self.writer.new_session(session));
    }

    fn other_sessions(&self, session: Session) -> Vec<Session> {
        use Session::{Break, Closed, Open, PreClose, PreOpen};
        let all = [Open, Open, Break, Closed, PreOpen, PreClose];
        all.into_iter().filter(|&other| other != session).collect()
    }

    /// Seven of eight customers, in any order, enter an order that goes with the
    /// session, and half of them a limit too.
    fn rows_on_most_desks(&mut self, session: Session) {
        let mut customers = self.writer.customers().to_vec();
        self.random.shuffle(&mut customers);
        for customer in customers {
            if self.random.once_in(8) {
                continue;
            }
            self.order(customer, of_session(session));
            if self.random.once_in(2) {
                self.order(customer, OrderType::Limit);
            }
        }
    }

    /// The last desk and some in the further half.
    fn full_desks(&mut self, auction: Session) {
        let customers = self.writer.customers().to_vec();
        let further = &customers[customers.len() / 2..];
        let mut full = vec![customers[customers.len() - 1]];
        full.extend((1..FULL_DESKS).map(|_| self.random.pick(further)));
        for customer in full {
            self.fill(customer, auction);
            self.full.push(customer);
        }
    }

    /// Until the desk has no free row, and one order more.
    fn fill(&mut self, customer: u16, auction: Session) {
        for _ in 0..MOST_ORDERS {
            let is_full = self.writer.rows(customer) == ROWS;
            let order_type = match self.random.below(3) {
                0 => of_session(auction),
                _ => OrderType::Limit,
            };
            self.order(customer, order_type);
            if is_full {
                break;
            }
        }
    }

    fn order(&mut self, customer: u16, order_type: OrderType) {
        self.events
            .push(self.writer.plain_order(customer, order_type));
    }

    /// Events by everyone, more where there are more desks.
    fn any_events(&mut self) {
        for _ in 0..30 + self.writer.customers().len() / 2 {
            self.events.push(self.writer.event());
        }
    }
}

/// The type of order that a session takes besides limits.
fn of_session(session: Session) -> OrderType {
    match session {
        Session::PreOpen => OrderType::Ato,
        Session::PreClose => OrderType::Atc,
        _ => OrderType::Mp,
    }
}

#[cfg(test)]
mod tests {
    use second::gate;
    use second::state::{Desk, Header, Row};

    use super::*;
    use crate::layout::fresh;

    fn desks(words: &[u32]) -> Vec<Desk> {
        let header = Header::read(words).unwrap();
        let desk = |customer| {
            let place = header.desk_place(customer).unwrap();
            Desk::read(&words[place], header.securities, header.clock).unwrap()
        };
        (0..header.customers).map(desk).collect()
    }

    fn ends_auction(words: &[u32], next: u8) -> bool {
        let session = Header::read(words).unwrap().session;
        matches!(session, Session::PreOpen | Session::PreClose) && next != session as u8
    }

    /// Rows on most desks, ATO or ATC rows too, and a full one in the further half.
    fn is_wide(desks: &[Desk]) -> bool {
        let with = |wanted: &dyn Fn(&Desk) -> bool| desks.iter().filter(|d| wanted(d)).count();
        let is_limit = |row: &Row| row.order_type == OrderType::Limit;
        let most = desks.len() * 2 / 3;
        let further = &desks[desks.len() / 2..];
        with(&|desk| !desk.rows().is_empty()) >= most
            && with(&|desk| !desk.rows().iter().all(is_limit)) >= most
            && further.iter().any(|desk| desk.rows().len() == ROWS)
    }

    #[test]
    fn rows_on_most_desks_and_some_far_ones_full() {
        for (seed, customers, securities) in [(1, 256, 8), (2, 256, 1_024), (3, 100, 3)] {
            let wide = Wide::history(Random::new(seed), customers, securities);
            let mut words = fresh(customers, securities);
            let (mut sessions, mut wide_ends) = (0, 0);
            for event in &wide.events {
                if let [2, next] = event[..] {
                    sessions += 1;
                    let is_end = ends_auction(&words, next);
                    wide_ends += u32::from(is_end && is_wide(&desks(&words)));
                }
                gate::handle(&mut words, event);
            }
            assert_eq!(wide_ends, 2, "seed {seed}");
            assert!(sessions <= 6, "{sessions} sessions, seed {seed}");
        }
    }

    #[test]
    fn open_sessions_end_with_mp_rows_on_most_desks() {
        let (customers, securities) = (60, 12);
        let is_mp = |row: &Row| row.order_type == OrderType::Mp;
        let mut ends = 0;
        for seed in 0..12 {
            let wide = Wide::history(Random::new(seed), customers, securities);
            let mut words = fresh(customers, securities);
            for event in &wide.events {
                let session = Header::read(&words).unwrap().session;
                if event[..] == [2, Session::PreOpen as u8]
                    || event[..] == [2, Session::PreClose as u8]
                {
                    let desks = desks(&words);
                    let with_mp = desks.iter().filter(|desk| desk.rows().iter().any(is_mp));
                    let most = with_mp.count() >= desks.len() * 2 / 3;
                    ends += u32::from(session == Session::Open && most);
                }
                gate::handle(&mut words, event);
            }
        }
        assert!(ends > 0);
    }
}
