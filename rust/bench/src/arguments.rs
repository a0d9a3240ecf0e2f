//! What the program is asked to do.

use crate::auction::{Call, NAME, current};
use crate::implementation::Implementation;
use crate::mixture::Mixture;
use crate::size::Size;

pub const USAGE: &str = "\
usage: bench [--repeats N] [--at CUSTOMERS,SECURITIES,ROWS] [--only NAME] [MIXTURE ..]
  --repeats N    time each list so often, 1 to 100000 times (51)
  --at C,S,R     one line a mixture, with so many customers (1 to 256), securities
                 (1 to 1024) and open rows on every desk (0 to 31)
  --only NAME    time only gate, second or tuned, and compare nothing, so that it
                 handles each list N times and no more
  MIXTURE        order-heavy, pre-open, cancel-heavy, cancel-match, market-heavy
                 or session, or auction, volumes (with two scratch lists and with
                 one) or current (an order added or taken out), which have neither
                 a state nor a tuned implementation; without one, all of them";

/// Odd, so that there is a median.
const REPEATS: usize = 51;
/// All times of a list are kept until its median is taken.
const MAX_REPEATS: usize = 100_000;

#[derive(Clone, Debug, PartialEq, Eq)]
pub struct Arguments {
    pub repeats: usize,
    pub implementations: Vec<Implementation>,
    at: Option<Size>,
    mixtures: Vec<Mixture>,
    calls: Vec<Call>,
    is_current_asked: bool,
}

impl Arguments {
    pub fn parse(words: impl IntoIterator<Item = String>) -> Result<Arguments, String> {
        let mut arguments = Arguments {
            repeats: REPEATS,
            implementations: Implementation::ALL.to_vec(),
            at: None,
            mixtures: Vec::new(),
            calls: Vec::new(),
            is_current_asked: false,
        };
        let mut only = None;
        let mut words = words.into_iter();
        while let Some(word) = words.next() {
            let mut value = || words.next().ok_or(format!("{word} needs a value"));
            match word.as_str() {
                "--repeats" => arguments.repeats = repeats(&value()?)?,
                "--at" => arguments.at = Some(value()?.parse()?),
                "--only" if only.is_some() => return Err(String::from("--only is given twice")),
                "--only" => only = Some(implementation(&value()?)?),
                _ if word.starts_with('-') => return Err(format!("unknown argument {word:?}")),
                current::NAME => arguments.is_current_asked = true,
                _ => match Call::named(&word) {
                    Some(call) => arguments.calls.push(call),
                    None => arguments.mixtures.push(mixture(&word)?),
                },
            }
        }
        if let Some(only) = only {
            arguments.implementations = vec![only];
        }
        arguments.check_sizes()?;
        arguments.check_auction()?;
        Ok(arguments)
    }

    fn check_sizes(&self) -> Result<(), String> {
        let Some(size) = self.at else {
            return Ok(());
        };
        match self.mixtures.iter().find(|mixture| !mixture.fits(size)) {
            Some(mixture) => Err(format!("{} needs open rows", mixture.name())),
            None => Ok(()),
        }
    }

    fn check_auction(&self) -> Result<(), String> {
        let calls = self.calls.iter().map(|call| call.name());
        let current = self.is_current_asked.then_some(current::NAME);
        let Some(name) = calls.chain(current).next() else {
            return Ok(());
        };
        if self.at.is_some() {
            return Err(format!("{name} has no state that --at could be for"));
        }
        match self.implementations[..] {
            [alone] if !Implementation::AUCTION.contains(&alone) => {
                Err(format!("{} has no {NAME}", alone.name()))
            }
            _ => Ok(()),
        }
    }

    fn is_everything_asked(&self) -> bool {
        self.mixtures.is_empty() && self.calls.is_empty() && !self.is_current_asked
    }

    /// The mixtures asked for, in the order of the table.
    pub fn mixtures(&self) -> impl Iterator<Item = Mixture> {
        let is_asked = |mixture: &Mixture| self.mixtures.contains(mixture);
        Mixture::ALL
            .into_iter()
            .filter(move |mixture| self.is_everything_asked() || is_asked(mixture))
    }

    /// The calls of the auction asked for, in the order of the table.
    pub fn calls(&self) -> Vec<Call> {
        let mut calls = Call::ALL.to_vec();
        if !self.is_everything_asked() || self.at.is_some() {
            calls.retain(|call| self.calls.contains(call));
        }
        calls
    }

    /// Those of which the auction is asked for, the gate first.
    pub fn auction(&self) -> Vec<Implementation> {
        if self.calls().is_empty() {
            return Vec::new();
        }
        self.with_auction()
    }

    /// Those of which the list kept current is asked for, the gate first.
    pub fn current(&self) -> Vec<Implementation> {
        let is_part_of_all = self.is_everything_asked() && self.at.is_none();
        if !self.is_current_asked && !is_part_of_all {
            return Vec::new();
        }
        self.with_auction()
    }

    fn with_auction(&self) -> Vec<Implementation> {
        let mut implementations = self.implementations.clone();
        implementations.retain(|implementation| Implementation::AUCTION.contains(implementation));
        implementations
    }

    /// The sizes at which a mixture is asked for.
    pub fn sizes(&self, mixture: Mixture) -> Vec<Size> {
        match self.at {
            Some(size) if mixture.fits(size) => vec![size],
            Some(_) => Vec::new(),
            None => mixture.sizes(),
        }
    }
}

fn repeats(word: &str) -> Result<usize, String> {
    match word.parse() {
        Ok(repeats) if (1..=MAX_REPEATS).contains(&repeats) => Ok(repeats),
        _ => Err(format!(
            "{word:?}: expected a number of repeats, 1 to {MAX_REPEATS}"
        )),
    }
}

fn implementation(word: &str) -> Result<Implementation, String> {
    Implementation::named(word).ok_or(format!("{word:?}: expected gate, second or tuned"))
}

fn mixture(word: &str) -> Result<Mixture, String> {
    Mixture::named(word).ok_or(format!("no mixture is called {word:?}"))
}

#[cfg(test)]
mod tests {
    use super::*;

    fn parse(line: &str) -> Result<Arguments, String> {
        Arguments::parse(line.split_whitespace().map(String::from))
    }

    #[test]
    fn without_arguments_everything() {
        let arguments = parse("").unwrap();
        assert_eq!(arguments.repeats, 51);
        assert_eq!(arguments.implementations, Implementation::ALL);
        assert!(arguments.mixtures().eq(Mixture::ALL));
        assert_eq!(arguments.sizes(Mixture::Orders), Mixture::Orders.sizes());
        assert_eq!(arguments.auction(), Implementation::AUCTION);
        assert_eq!(arguments.calls(), Call::ALL);
        assert_eq!(arguments.current(), Implementation::AUCTION);
    }

    #[test]
    fn only_the_list_kept_current() {
        let arguments = parse("current --repeats 3").unwrap();
        assert_eq!(arguments.mixtures().count(), 0);
        assert_eq!(arguments.auction(), []);
        assert_eq!(arguments.current(), Implementation::AUCTION);
        let arguments = parse("current volumes --only second").unwrap();
        assert_eq!(arguments.auction(), [Implementation::Second]);
        assert_eq!(arguments.calls(), [Call::Volumes]);
        assert_eq!(arguments.current(), [Implementation::Second]);
    }

    #[test]
    fn only_the_auction() {
        let arguments = parse("volumes auction --repeats 3").unwrap();
        assert_eq!(arguments.mixtures().count(), 0);
        assert_eq!(arguments.auction(), Implementation::AUCTION);
        assert_eq!(arguments.calls(), Call::ALL);
        let arguments = parse("session volumes --only second").unwrap();
        assert!(arguments.mixtures().eq([Mixture::Sessions]));
        assert_eq!(arguments.auction(), [Implementation::Second]);
        assert_eq!(arguments.calls(), [Call::Volumes]);
        assert_eq!(arguments.current(), []);
    }

    #[test]
    fn no_auction() {
        for line in ["session", "--at 16,64,31", "--only tuned"] {
            let arguments = parse(line).unwrap();
            assert_eq!(arguments.auction(), [], "{line}");
            assert_eq!(arguments.current(), [], "{line}");
        }
    }

    #[test]
    fn some_lines() {
        let arguments = parse("session --at 16,64,31 --repeats 5 order-heavy --only gate").unwrap();
        assert_eq!(arguments.repeats, 5);
        assert_eq!(arguments.implementations, [Implementation::Gate]);
        assert!(
            arguments
                .mixtures()
                .eq([Mixture::Orders, Mixture::Sessions])
        );
        let size = Size {
            customers: 16,
            securities: 64,
            rows: 31,
        };
        assert_eq!(arguments.sizes(Mixture::Sessions), [size]);
    }

    #[test]
    fn the_most_repeats() {
        assert_eq!(parse("--repeats 100000").unwrap().repeats, 100_000);
    }

    #[test]
    fn a_mixture_that_the_size_leaves_nothing_of() {
        let arguments = parse("--at 1,1,0").unwrap();
        assert_eq!(arguments.sizes(Mixture::CancelMatch), []);
        assert_eq!(arguments.sizes(Mixture::Cancels).len(), 1);
        assert_eq!(
            parse("cancel-match --at 1,1,0").unwrap_err(),
            "cancel-match needs open rows"
        );
    }

    #[test]
    fn usage_names_every_mixture_and_implementation() {
        for mixture in Mixture::ALL {
            assert!(USAGE.contains(mixture.name()), "{mixture:?}");
        }
        for call in Call::ALL {
            assert!(USAGE.contains(call.name()), "{call:?}");
        }
        assert!(USAGE.contains(current::NAME));
        for implementation in Implementation::ALL {
            assert!(USAGE.contains(implementation.name()), "{implementation:?}");
        }
    }

    #[test]
    fn errors() {
        let expected = [
            ("orders", "no mixture is called \"orders\""),
            ("--fast", "unknown argument \"--fast\""),
            ("--repeats", "--repeats needs a value"),
            (
                "--repeats 0",
                "\"0\": expected a number of repeats, 1 to 100000",
            ),
            (
                "--repeats many",
                "\"many\": expected a number of repeats, 1 to 100000",
            ),
            (
                "--repeats 100001",
                "\"100001\": expected a number of repeats, 1 to 100000",
            ),
            (
                "--repeats 1000000000000",
                "\"1000000000000\": expected a number of repeats, 1 to 100000",
            ),
            ("--only", "--only needs a value"),
            ("--only first", "\"first\": expected gate, second or tuned"),
            ("--only gate --only tuned", "--only is given twice"),
            ("--only gate --only gate", "--only is given twice"),
            ("--at", "--at needs a value"),
            (
                "auction --at 16,64,10",
                "auction has no state that --at could be for",
            ),
            (
                "volumes --at 16,64,10",
                "volumes has no state that --at could be for",
            ),
            (
                "current --at 16,64,10",
                "current has no state that --at could be for",
            ),
            ("current --only tuned", "tuned has no auction"),
            ("auction --only tuned", "tuned has no auction"),
            ("volumes --only tuned", "tuned has no auction"),
        ];
        for (line, message) in expected {
            assert_eq!(parse(line).unwrap_err(), message);
        }
        for size in [
            "16",
            "16,64",
            "16,64,10,1",
            "0,64,10",
            "257,64,10",
            "16,0,10",
            "16,1025,10",
            "16,64,32",
            "16,64,-1",
            "16,,10",
            "many,64,10",
        ] {
            let message = parse(&format!("--at {size}")).unwrap_err();
            let expected = format!("{size:?}: expected customers, securities and rows");
            assert!(message.starts_with(&expected), "{message}");
        }
    }
}
