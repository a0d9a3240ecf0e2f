//! What each answer means in a few words, and the class that it falls in.

use guvontsira::Answer;

/// Every answer by its words in a listing; beside it, the papers' rule or
/// condition in short. A summary is in this order.
#[rustfmt::skip]
pub const ANSWERS: [(&str, &str); 23] = [
    ("ok", "carried out"),
    ("accept", "may go to the exchange"),
    ("warn 10", "may go, but more than 10 positions from the reference price"),
    ("warn 30", "may go, but above 130% or below 70% of the last sale"),
    ("reject S", "no such order in this session, or MP with no best price opposite"),
    ("reject V", "volume 0, too large or not in whole lots, or value too large"),
    ("reject C", "above the ceiling or below the floor of the day"),
    ("reject Q", "above 150% or below 50% of the reference price"),
    ("reject W", "would trade with the customer's own order"),
    ("reject P", "large order entered again within a minute of its cancel"),
    ("refused 1", "no state: counts, clock or session out of range"),
    ("refused 2", "not as many bytes as its kind takes"),
    ("refused 3", "unknown kind of event"),
    ("refused 4", "no such customer or security"),
    ("refused 5", "code outside its list, time past 23:59:59.999, or order number 0"),
    ("refused 6", "price off the ladder or above 100000.00, or where none may stand"),
    ("refused 7", "earlier than the clock"),
    ("refused 8", "damaged record in the state"),
    ("refused 9", "number of an order that is open or was cancelled within a minute"),
    ("refused 10", "no open order with this number, or for a rest no MP order"),
    ("refused 11", "volume 0, or more than is open"),
    ("refused 12", "desk full: 32 orders open or cancelled within a minute"),
    ("refused 13", "old shares 0, or dividend not below the prior close"),
];

/// The first words of answers; beside each its colour, the parameter of a
/// terminal's "select graphic rendition".
pub const CLASSES: [(&str, &str); 5] = [
    ("ok", "2"),
    ("accept", "32"),
    ("warn", "33"),
    ("reject", "31"),
    ("refused", "35"),
];

/// Where the answer stands in [`ANSWERS`].
pub fn place(answer: Answer) -> usize {
    let words = answer.to_string();
    let place = ANSWERS.iter().position(|row| row.0 == words);
    place.unwrap_or_else(|| panic!("{words} is not among the answers"))
}

/// Where an answer's class stands in [`CLASSES`], by the answer's words.
pub fn class(words: &str) -> usize {
    let first = words.split(' ').next();
    let place = CLASSES.iter().position(|row| Some(row.0) == first);
    place.unwrap_or_else(|| panic!("{words} has no class"))
}

#[cfg(test)]
mod tests {
    use super::*;

    #[test]
    fn every_answer_has_a_meaning() {
        let known = (0..=u16::MAX).filter_map(|number| Answer::from_number(number.into()));
        let mut places: Vec<usize> = known.map(place).collect();
        places.sort_unstable();
        let rows: Vec<usize> = (0..ANSWERS.len()).collect();
        assert_eq!(places, rows, "one row an answer, and no other row");
    }

    #[test]
    fn every_answer_has_a_class() {
        let mut classes = ANSWERS.map(|(words, _)| class(words)).to_vec();
        classes.dedup();
        assert_eq!(classes, [0, 1, 2, 3, 4], "each class stands together");
    }
}
