//! The lines of the table. Each is printed as soon as it is measured.

use crate::auction::current::{self, Current, Step};
use crate::auction::{Books, Call, NAME};
use crate::implementation::Implementation;
use crate::mixture::Mixture;
use crate::size::Size;

pub struct Table {
    /// If there are several, the first is the gate.
    pub implementations: Vec<Implementation>,
}

impl Table {
    pub fn heading(&self) -> String {
        let line = format!(
            "{:<13}{:>10}{:>11}{:>5}{:>7}",
            "mixture", "customers", "securities", "rows", "events"
        );
        line + &self.names()
    }

    pub fn auction_heading(&self) -> String {
        let line = format!("{NAME:<13}{:>10}{:>11}{:>12}", "prices", "orders", "calls");
        line + &self.names()
    }

    /// The last columns are how many times request 6's price of the list that it leaves a
    /// call takes, by the same implementation.
    pub fn current_heading(&self) -> String {
        let name = current::NAME;
        let mut line = format!("{name:<13}{:>10}{:>11}{:>12}", "prices", "orders", "places");
        line += &self.names();
        for implementation in &self.implementations {
            let name = format!("{}/volumes", implementation.name());
            line += &format!("{name:>16}");
        }
        line
    }

    /// Of the columns with the times and how they compare.
    fn names(&self) -> String {
        let mut names = String::new();
        for implementation in &self.implementations {
            names += &format!("{:>11}", format!("{} ns", implementation.name()));
        }
        for other in &self.implementations[1..] {
            names += &format!("{:>12}", format!("gate/{}", other.name()));
        }
        names
    }

    pub fn line(&self, mixture: Mixture, size: Size, events: usize, times: &[f64]) -> String {
        let Size {
            customers,
            securities,
            rows,
        } = size;
        let name = mixture.name();
        format!("{name:<13}{customers:>10}{securities:>11}{rows:>5}{events:>7}") + &columns(times)
    }

    pub fn auction_line(&self, call: Call, books: &Books, times: &[f64]) -> String {
        let (name, prices) = (call.name(), books.prices);
        let (orders, calls) = (books.length, books.len());
        format!("{name:<13}{prices:>10}{orders:>11}{calls:>12}") + &columns(times)
    }

    pub fn current_line(&self, step: Step, current: &Current, times: &[Vec<f64>]) -> String {
        let (name, prices) = (step.name(), current.prices);
        let (orders, places) = (current.orders, current.places);
        let line = format!("{name:<13}{prices:>10}{orders:>11}{places:>12}");
        let times = [step, step.volumes()].map(|step| &times[step as usize][..]);
        line + &columns(times[0]) + &beside(times)
    }

    /// Over all lines of a step, beside all lines of request 6's price.
    pub fn current_mean(&self, step: Step, lines: &[Vec<Vec<f64>>]) -> String {
        let of = |step: Step| {
            let lines = lines.iter().map(|times| times[step as usize].clone());
            lines.collect::<Vec<_>>()
        };
        let times = [step, step.volumes()].map(|step| self.means(&of(step)));
        self.mean(step.name(), &of(step)) + &beside(times.each_ref().map(|times| &times[..]))
    }

    /// Over all lines of a mixture or of a call of the auction.
    pub fn mean(&self, name: &str, lines: &[Vec<f64>]) -> String {
        let what = format!("geometric mean of {} lines", lines.len());
        format!("{name:<13}{what:>33}") + &columns(&self.means(lines))
    }

    fn means(&self, lines: &[Vec<f64>]) -> Vec<f64> {
        (0..self.implementations.len())
            .map(|place| geometric_mean(lines.iter().map(|times| times[place])))
            .collect()
    }
}

/// How many times those of request 6's price the times are.
fn beside([times, volumes]: [&[f64]; 2]) -> String {
    let pairs = times.iter().zip(volumes);
    pairs
        .map(|(time, volumes)| format!("{:>16.2}", time / volumes))
        .collect()
}

/// The times, then how many times the others' the first is.
fn columns(times: &[f64]) -> String {
    let ratios = times[1..].iter().map(|other| times[0] / other);
    let times = times.iter().map(|time| format!("{time:>11.1}"));
    times
        .chain(ratios.map(|ratio| format!("{ratio:>12.2}")))
        .collect()
}

/// The geometric one, because then the means' ratio is the ratios' mean.
fn geometric_mean(values: impl ExactSizeIterator<Item = f64>) -> f64 {
    let count = values.len() as f64;
    (values.map(f64::ln).sum::<f64>() / count).exp()
}

#[cfg(test)]
mod tests {
    use super::*;

    #[test]
    fn columns_stand_below_their_names() {
        let table = Table {
            implementations: Implementation::ALL.to_vec(),
        };
        let size = "16,64,10".parse().unwrap();
        let lines = [vec![100.0, 200.0, 50.0], vec![400.0, 200.0, 50.0]];
        assert_eq!(
            [
                table.heading(),
                table.line(Mixture::Orders, size, 2_003, &lines[0]),
                table.line(Mixture::Orders, size, 2_003, &lines[1]),
                table.mean("order-heavy", &lines),
            ],
            [
                "mixture       customers securities rows events    gate ns  second ns   tuned ns gate/second  gate/tuned",
                "order-heavy          16         64   10   2003      100.0      200.0       50.0        0.50        2.00",
                "order-heavy          16         64   10   2003      400.0      200.0       50.0        2.00        8.00",
                "order-heavy          geometric mean of 2 lines      200.0      200.0       50.0        1.00        4.00",
            ]
        );
    }

    #[test]
    fn one_implementation_has_no_ratio() {
        let table = Table {
            implementations: vec![Implementation::Tuned],
        };
        let size = "1,1,0".parse().unwrap();
        assert_eq!(
            [
                table.heading(),
                table.line(Mixture::Sessions, size, 20, &[12.34])
            ],
            [
                "mixture       customers securities rows events   tuned ns",
                "session               1          1    0     20       12.3",
            ]
        );
    }
    #[test]
    fn the_auctions_columns_stand_below_the_others() {
        let table = Table {
            implementations: Implementation::AUCTION.to_vec(),
        };
        let books = Books::all();
        let lines = [vec![100.0, 200.0], vec![400.0, 200.0]];
        assert_eq!(
            [
                table.auction_heading(),
                table.auction_line(Call::Sums, &books[2], &lines[0]),
                table.auction_line(Call::Volumes, &books[3], &lines[1]),
                table.mean("volumes", &lines),
            ],
            [
                "auction          prices     orders       calls    gate ns  second ns gate/second",
                "auction          shared       1024           8      100.0      200.0        0.50",
                "volumes       different         16         512      400.0      200.0        2.00",
                "volumes              geometric mean of 2 lines      200.0      200.0        1.00",
            ]
        );
    }

    #[test]
    fn beside_the_price_of_the_same_list() {
        let table = Table {
            implementations: Implementation::AUCTION.to_vec(),
        };
        let all = Current::all();
        let lines = [
            [[110.0, 400.0], [100.0, 200.0], [90.0, 300.0], [60.0, 100.0]].map(Vec::from),
            [[440.0, 400.0], [400.0, 800.0], [90.0, 300.0], [45.0, 200.0]].map(Vec::from),
        ]
        .map(Vec::from);
        assert_eq!(
            [
                table.current_heading(),
                table.current_line(Step::Add, &all[1], &lines[0]),
                table.current_line(Step::Take, &all[1], &lines[0]),
                table.current_line(Step::VolumesAdded, &all[9], &lines[1]),
                table.current_line(Step::VolumesTaken, &all[9], &lines[1]),
                table.current_mean(Step::Add, &lines),
            ],
            [
                "current          prices     orders      places    gate ns  second ns gate/second    gate/volumes  second/volumes",
                "add              shared         16        1024      110.0      400.0        0.28            1.10            2.00",
                "take             shared         16        1024       90.0      300.0        0.30            1.50            3.00",
                "volumes-add   different       1024        1024      400.0      800.0        0.50            1.00            1.00",
                "volumes-take  different       1024        1024       45.0      200.0        0.23            1.00            1.00",
                "add                  geometric mean of 2 lines      220.0      400.0        0.55            1.10            1.00",
            ]
        );
    }
}
