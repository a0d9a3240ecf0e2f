//! What each group had of a run: cases, events compared one by one, and time.

use std::time::{Duration, Instant};

#[derive(Clone, Copy, Debug, Default, PartialEq, Eq)]
pub struct Share {
    pub cases: u64,
    pub events: u64,
    pub time: Duration,
}

/// The group at work is the last one entered.
#[derive(Debug)]
pub struct Shares {
    groups: Vec<(&'static str, Share)>,
    current: usize,
    entered: Instant,
}

impl Shares {
    pub fn new() -> Self {
        Shares {
            groups: Vec::new(),
            current: 0,
            entered: Instant::now(),
        }
    }

    /// A group comes again with each round, and its share goes on growing.
    pub fn enter(&mut self, group: &'static str) {
        self.leave();
        let place = self.groups.iter().position(|(name, _)| *name == group);
        self.current = place.unwrap_or(self.groups.len());
        if place.is_none() {
            self.groups.push((group, Share::default()));
        }
    }

    fn leave(&mut self) {
        let time = self.entered.elapsed();
        self.entered = Instant::now();
        if let Some(share) = self.current() {
            share.time += time;
        }
    }

    /// `None` before the first group.
    pub fn current(&mut self) -> Option<&mut Share> {
        self.groups.get_mut(self.current).map(|(_, share)| share)
    }

    /// Groups that were entered and had no case.
    pub fn idle(&self) -> Vec<&'static str> {
        let idle = self.groups.iter().filter(|(_, share)| share.cases == 0);
        idle.map(|(name, _)| *name).collect()
    }

    /// A line for each group, in the order in which they were entered.
    pub fn table(&mut self) -> String {
        self.leave();
        let mut out = format!(
            "{:<18}{:>10}{:>12}{:>9}\n",
            "group", "cases", "events", "seconds"
        );
        for (name, share) in &self.groups {
            let seconds = share.time.as_secs_f64();
            out += &format!(
                "{name:<18}{:>10}{:>12}{seconds:>9.1}\n",
                share.cases, share.events
            );
        }
        out
    }
}

#[cfg(test)]
mod tests {
    use super::*;

    #[test]
    fn a_group_that_comes_again_has_one_share() {
        let mut shares = Shares::new();
        assert_eq!(shares.current(), None);
        for group in ["edges", "histories", "edges"] {
            shares.enter(group);
            shares.current().unwrap().cases += 1;
        }
        let cases: Vec<_> = shares.groups.iter().map(|(n, s)| (*n, s.cases)).collect();
        assert_eq!(cases, [("edges", 2), ("histories", 1)]);
        assert!(shares.idle().is_empty());
        shares.enter("ladder");
        assert_eq!(shares.idle(), ["ladder"]);
        assert_eq!(shares.table().lines().count(), 4);
    }
}
