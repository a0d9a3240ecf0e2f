//! Random days as bytes, for the day program.

use second::event;

use crate::mixture::MIXTURES;
use crate::random::Random;
use crate::writer::Writer;

/// Customers and securities, as in the day program; all of them take part.
const CUSTOMERS: u32 = 8;
const SECURITIES: u32 = 16;
/// The day program reads so many bytes. These days end before, so that the
/// listing has all of their events.
const INPUT_LIMIT: usize = 65_536;

/// Whole events one after another, of one mixture: six seeds in a row have all
/// six. An event that is broken would end the listing, so there is none.
pub fn day(seed: u64) -> Vec<u8> {
    let mixture = &MIXTURES[(seed % MIXTURES.len() as u64) as usize];
    let mut random = Random::of_round(seed, "days", 0);
    let length = 1_000 + random.place(2_500);
    let mut writer = Writer::of_all(random, mixture, CUSTOMERS, SECURITIES);
    let mut day = Vec::new();
    for event in writer.history(length) {
        if day.len() + event.len() >= INPUT_LIMIT {
            break;
        }
        if event::decode(&event).is_ok() {
            day.extend(event);
        }
    }
    day
}

#[cfg(test)]
mod tests {
    use second::day::listing;

    use super::*;

    /// The kind and the answer of each line but the first.
    fn lines(listing: &str) -> Vec<(&str, &str)> {
        let words = listing.lines().skip(1).map(|line| line.splitn(3, ' '));
        words
            .filter_map(|mut words| Some((words.nth(1)?, words.next()?)))
            .collect()
    }

    #[test]
    fn listings_are_long_and_have_every_kind_and_answer() {
        let listings: Vec<String> = (1..=6).map(|seed| listing(&day(seed))).collect();
        for listing in &listings {
            assert!(lines(listing).len() > 900);
        }
        let all: Vec<(&str, &str)> = listings.iter().flat_map(|text| lines(text)).collect();
        for kind in 1..=9 {
            assert!(all.iter().any(|line| line.0 == kind.to_string()));
        }
        let verdicts =
            "ok,accept,warn 10,warn 30,reject S,reject V,reject C,reject Q,reject W,reject P";
        // 1 and 8 never come from a fresh state, and 2 or 3 would end a listing.
        let refusals = [4, 5, 6, 7, 9, 10, 11, 12, 13].map(|number| format!("refused {number}"));
        let expected: Vec<&str> = verdicts
            .split(',')
            .chain(refusals.iter().map(String::as_str))
            .collect();
        for answer in &expected {
            assert!(all.iter().any(|line| line.1 == *answer), "{answer}");
        }
        assert!(all.iter().all(|line| expected.contains(&line.1)));
    }
}
