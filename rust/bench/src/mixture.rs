//! The mixtures of events that are timed, and at which sizes.

use crate::list::List;
use crate::size::Size;
use crate::writer::{OPEN, PRE_OPEN, Writer};

#[derive(Clone, Copy, Debug, PartialEq, Eq)]
pub enum Mixture {
    Orders,
    PreOpen,
    Cancels,
    CancelMatch,
    Market,
    Sessions,
}

/// So many events are timed in one repeat: few enough to be done before the
/// machine turns to something else, and many, because a processor learns to
/// predict the branches of a short list.
const EVENTS: usize = 2_000;
/// A session change reads every record.
const SESSION_CHANGES: usize = 20;

impl Mixture {
    pub const ALL: [Mixture; 6] = [
        Mixture::Orders,
        Mixture::PreOpen,
        Mixture::Cancels,
        Mixture::CancelMatch,
        Mixture::Market,
        Mixture::Sessions,
    ];

    pub fn name(self) -> &'static str {
        match self {
            Mixture::Orders => "order-heavy",
            Mixture::PreOpen => "pre-open",
            Mixture::Cancels => "cancel-heavy",
            Mixture::CancelMatch => "cancel-match",
            Mixture::Market => "market-heavy",
            Mixture::Sessions => "session",
        }
    }

    pub fn named(name: &str) -> Option<Mixture> {
        let mut all = Mixture::ALL.into_iter();
        all.find(|mixture| mixture.name() == name)
    }

    /// Every number of customers with every number of securities; other numbers
    /// of rows only in a middling and in the largest state.
    pub fn sizes(self) -> Vec<Size> {
        let size = |customers, securities, rows| Size {
            customers,
            securities,
            rows,
        };
        let mut sizes = Vec::new();
        for customers in [1, 16, 256] {
            for securities in [1, 64, 1_024] {
                sizes.push(size(customers, securities, 10));
            }
        }
        if self.reads_desks() {
            for (customers, securities) in [(16, 64), (256, 1_024)] {
                for rows in [0, 31] {
                    sizes.push(size(customers, securities, rows));
                }
            }
        }
        sizes.retain(|&size| self.fits(size));
        sizes
    }

    fn reads_desks(self) -> bool {
        self != Mixture::Market
    }

    /// Without rows there is nothing to cancel or to match.
    pub fn fits(self, size: Size) -> bool {
        self != Mixture::CancelMatch || size.rows > 0
    }

    fn events(self) -> usize {
        match self {
            Mixture::Sessions => SESSION_CHANGES,
            _ => EVENTS,
        }
    }

    fn session(self) -> u8 {
        match self {
            Mixture::PreOpen => PRE_OPEN,
            _ => OPEN,
        }
    }

    /// The same list for every run and for every implementation.
    pub fn prepare(self, size: Size) -> List {
        let mut writer = Writer::new(self.session(), size);
        writer.open_the_day();
        writer.begin();
        while writer.len() < self.events() {
            writer.round(self);
        }
        writer.finish()
    }
}

#[cfg(test)]
mod tests {
    use std::ops::Range;

    use second::answer::{Answer, Rule};
    use second::gate;
    use second::state::{Desk, Header};

    use super::*;

    const ROWS: [u32; 3] = [0, 10, 31];

    fn size(customers: u32, rows: u32) -> Size {
        Size {
            customers,
            securities: 64,
            rows,
        }
    }

    fn desks(words: &[u32]) -> Vec<Desk> {
        let header = Header::read(words).unwrap();
        let desk = |customer| {
            let place = header.desk_place(customer).unwrap();
            Desk::read(&words[place], header.securities, header.clock).unwrap()
        };
        (0..header.customers).map(desk).collect()
    }

    fn open_rows(desk: &Desk) -> usize {
        desk.rows().iter().filter(|row| row.is_open()).count()
    }

    /// Has every desk so many open rows?
    fn all_have_open(words: &[u32], rows: u32) -> bool {
        let mut desks = desks(words).into_iter();
        desks.all(|desk| open_rows(&desk) == rows as usize)
    }

    /// What the gate is told and answers.
    struct Step {
        kind: u8,
        answer: Answer,
        words: Vec<u32>,
    }

    fn steps(list: &List) -> impl Iterator<Item = Step> {
        list.parts.iter().flat_map(|part| {
            let mut words = list.start.clone();
            part.events().map(move |event| Step {
                kind: event[0],
                answer: gate::handle(&mut words, event),
                words: words.clone(),
            })
        })
    }

    /// How many events have this kind and answer.
    fn count(list: &List, kind: u8, answer: Answer) -> usize {
        let is_counted = |step: &Step| step.kind == kind && step.answer == answer;
        steps(list).filter(is_counted).count()
    }

    #[test]
    fn desks_keep_their_rows() {
        for mixture in Mixture::ALL {
            for customers in [1, 16] {
                for rows in ROWS {
                    let size = size(customers, rows);
                    if !mixture.fits(size) {
                        continue;
                    }
                    let list = mixture.prepare(size);
                    assert!(all_have_open(&list.start, rows), "{mixture:?} {size}");
                    let last = steps(&list).last().unwrap().words;
                    let kept = match mixture {
                        // Its cancelled rows stand in their places.
                        Mixture::CancelMatch => {
                            let mut desks = desks(&last).into_iter();
                            desks.all(|desk| desk.rows().len() == rows as usize)
                        }
                        _ => all_have_open(&last, rows),
                    };
                    assert!(kept, "{mixture:?} {size}");
                }
            }
        }
    }

    #[test]
    fn one_row_more_at_a_time() {
        for mixture in [Mixture::Orders, Mixture::PreOpen, Mixture::Cancels] {
            for rows in ROWS {
                let list = mixture.prepare(size(1, rows));
                let most = steps(&list)
                    .map(|step| open_rows(&desks(&step.words)[0]))
                    .max();
                assert_eq!(most, Some(rows as usize + 1), "{mixture:?}");
            }
        }
    }

    #[test]
    fn a_cancelled_row_fills_a_desk_of_31() {
        let list = Mixture::Cancels.prepare(size(1, 31));
        let full = |step: &Step| {
            let desk = desks(&step.words)[0];
            desk.rows().len() == 32 && open_rows(&desk) == 31
        };
        // After each cancel, and after the clock that follows it.
        let count = steps(&list).filter(full).count();
        assert_eq!((list.len(), count), (2_000, 1_000));
    }

    #[test]
    fn half_of_the_orders_before_the_opening_are_warned() {
        for rows in ROWS {
            let list = Mixture::PreOpen.prepare(size(16, rows));
            assert_eq!(count(&list, 5, Answer::Accept), 500);
            assert_eq!(count(&list, 5, Answer::Warn10), 500);
            assert_eq!(count(&list, 7, Answer::Ok), 1_000);
        }
    }

    /// Does an open row stand in the band from 10.00, 25.00, 100.00, 400.00 baht?
    fn bands(list: &List) -> [bool; 4] {
        let desks = desks(&list.start);
        let has = |range: Range<u32>| {
            let mut rows = desks.iter().flat_map(|desk| desk.rows());
            rows.any(|row| range.contains(&row.price))
        };
        [
            10_00..25_00,
            25_00..100_00,
            100_00..200_00,
            400_00..10_000_000,
        ]
        .map(has)
    }

    #[test]
    fn prices_stand_in_four_bands() {
        for mixture in Mixture::ALL {
            let list = mixture.prepare(size(16, 10));
            assert_eq!(bands(&list), [true; 4], "{mixture:?}");
            let list = mixture.prepare("16,1,10".parse().unwrap());
            assert_eq!(bands(&list), [false, true, false, false], "{mixture:?}");
        }
    }

    #[test]
    fn order_heavy_has_accepted_and_rejected_orders() {
        for rows in ROWS {
            let list = Mixture::Orders.prepare(size(16, rows));
            let accepted = count(&list, 5, Answer::Accept);
            assert!((750..850).contains(&accepted), "{accepted}");
            for rule in [Rule::S, Rule::V, Rule::W] {
                let rejected = count(&list, 5, Answer::Reject(rule));
                assert!((100..200).contains(&rejected), "{rule:?} {rejected}");
            }
        }
    }

    #[test]
    fn cancel_match_has_no_orders() {
        for (customers, rows, parts) in [(1, 10, 100), (1, 31, 33), (16, 31, 3), (256, 31, 1)] {
            let list = Mixture::CancelMatch.prepare(size(customers, rows));
            assert_eq!(list.len(), 2_000);
            assert_eq!(count(&list, 6, Answer::Ok), 1_000);
            assert_eq!(count(&list, 7, Answer::Ok), 1_000);
            assert_eq!(list.parts.len(), parts, "{customers} {rows}");
        }
    }

    #[test]
    fn rows_are_varied_where_a_desk_is_read() {
        let lines = Mixture::ALL.map(|mixture| mixture.sizes().len());
        assert_eq!(lines, [13, 13, 13, 11, 9, 13]);
    }
}
