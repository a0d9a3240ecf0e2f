//! What the program is asked to do.

use std::path::PathBuf;
use std::str::FromStr;
use std::time::Duration;

pub const USAGE: &str = "\
usage: checks [--seed N] [--seconds S | --rounds R] [--from ROUND] [--case NAME]
       checks --write-day FILE [--seed N]
  --seed N       for the random cases (1)
  --seconds S    all fixed cases, then random ones until S seconds have passed
                 (60), 20 rounds at least
  --rounds R     do R rounds of random cases, however long they take
  --from ROUND   begin with this round of the random cases (0)
  --case NAME    only the cases of this name
  --write-day FILE
                 no cases: write a random day of whole events to this file";

#[derive(Clone, Copy, Debug, PartialEq, Eq)]
pub enum Until {
    Elapsed(Duration),
    Rounds(u64),
}

#[derive(Clone, Debug, PartialEq, Eq)]
pub struct Arguments {
    pub seed: u64,
    pub until: Until,
    pub first_round: u64,
    pub only: Option<String>,
    pub write_day: Option<PathBuf>,
}

impl Arguments {
    pub fn parse(words: impl IntoIterator<Item = String>) -> Result<Arguments, String> {
        let mut arguments = Arguments {
            seed: 1,
            until: Until::Elapsed(Duration::from_secs(60)),
            first_round: 0,
            only: None,
            write_day: None,
        };
        let mut words = words.into_iter();
        while let Some(name) = words.next() {
            let mut value = || words.next().ok_or(format!("{name} needs a value"));
            match name.as_str() {
                "--seed" => arguments.seed = number(&value()?)?,
                "--seconds" => {
                    let seconds = number(&value()?)?;
                    arguments.until = Until::Elapsed(Duration::from_secs(seconds));
                }
                "--rounds" => arguments.until = Until::Rounds(number(&value()?)?),
                "--from" => arguments.first_round = number(&value()?)?,
                "--case" => arguments.only = Some(value()?),
                "--write-day" => arguments.write_day = Some(value()?.into()),
                _ => return Err(format!("unknown argument {name:?}")),
            }
        }
        Ok(arguments)
    }
}

fn number(word: &str) -> Result<u64, String> {
    u64::from_str(word).map_err(|_| format!("{word:?} is no number"))
}

#[cfg(test)]
mod tests {
    use super::*;

    fn parse(line: &str) -> Result<Arguments, String> {
        Arguments::parse(line.split_whitespace().map(String::from))
    }

    #[test]
    fn arguments() {
        let default = parse("").unwrap();
        assert_eq!(default.seed, 1);
        assert_eq!(default.until, Until::Elapsed(Duration::from_secs(60)));
        assert_eq!(default.write_day, None);
        let all = parse("--case histories --seed 7 --from 3 --rounds 2").unwrap();
        assert_eq!(all.only.as_deref(), Some("histories"));
        assert_eq!((all.seed, all.first_round), (7, 3));
        assert_eq!(all.until, Until::Rounds(2));
        let day = parse("--write-day day.bin --seed 4").unwrap();
        assert_eq!(day.write_day, Some("day.bin".into()));
        assert_eq!(day.seed, 4);
        assert_eq!(parse("--seed").unwrap_err(), "--seed needs a value");
        assert_eq!(parse("--seed x").unwrap_err(), "\"x\" is no number");
        assert_eq!(parse("fast").unwrap_err(), "unknown argument \"fast\"");
    }
}
