//! Where the words of a state stand, and what each of them means.

use second::answer::Answer;
use second::gate;
use second::state::{
    COUNTER_WORDS, DESK_WORDS, HEADER_WORDS, ROW_WORDS, SECURITY_WORDS, word_count,
};

pub const CLOCK: usize = 2;
pub const SESSION: usize = 3;
/// In a security's record.
pub const PRIOR_CLOSE: usize = 3;
/// The first of the four words that kind 9 sets.
pub const FIGURES: usize = 13;

const HEADER: [&str; HEADER_WORDS] = ["customers", "securities", "clock", "session"];
const SECURITY: [&str; SECURITY_WORDS] = [
    "lot",
    "free flag",
    "first-day flag",
    "prior close",
    "IPO price",
    "main board, projected",
    "main board, last sale",
    "main board, bid",
    "main board, offer",
    "foreign board, projected",
    "foreign board, last sale",
    "foreign board, bid",
    "foreign board, offer",
    "dividend",
    "subscription price",
    "old shares",
    "new shares",
];
const COUNTERS: [&str; COUNTER_WORDS] = ["accepted", "warned", "rejected"];
const ROW: [&str; ROW_WORDS] = [
    "mark",
    "order number",
    "security",
    "board",
    "side",
    "type",
    "price",
    "volume",
    "cancel time",
];

/// A fresh state. The counts are in range.
pub fn fresh(customers: u32, securities: u32) -> Vec<u32> {
    let count = word_count(customers, securities).expect("counts are in range");
    let mut words = vec![0; count];
    assert_eq!(gate::fresh(&mut words, customers, securities), Answer::Ok);
    words
}

pub fn security_start(security: usize) -> usize {
    HEADER_WORDS + SECURITY_WORDS * security
}

pub fn desk_start(securities: usize, customer: usize) -> usize {
    security_start(securities) + DESK_WORDS * customer
}

pub fn row_start(securities: usize, customer: usize, row: usize) -> usize {
    desk_start(securities, customer) + COUNTER_WORDS + ROW_WORDS * row
}

/// What the word at this place is, in a state of so many securities.
pub fn meaning(place: usize, securities: usize) -> String {
    if place < HEADER_WORDS {
        return format!("header, {}", HEADER[place]);
    }
    let desks = desk_start(securities, 0);
    if place < desks {
        let (security, word) = split(place - HEADER_WORDS, SECURITY_WORDS);
        return format!("security {security}, {}", SECURITY[word]);
    }
    let (customer, word) = split(place - desks, DESK_WORDS);
    if word < COUNTER_WORDS {
        return format!("customer {customer}, {}", COUNTERS[word]);
    }
    let (row, word) = split(word - COUNTER_WORDS, ROW_WORDS);
    format!("customer {customer}, row {row}, {}", ROW[word])
}

fn split(place: usize, size: usize) -> (usize, usize) {
    (place / size, place % size)
}

#[cfg(test)]
mod tests {
    use super::*;

    #[test]
    fn meanings() {
        let table = [
            (0, "header, customers"),
            (SESSION, "header, session"),
            (security_start(0), "security 0, lot"),
            (security_start(0) + PRIOR_CLOSE, "security 0, prior close"),
            (security_start(1) + 12, "security 1, foreign board, offer"),
            (security_start(1) + FIGURES, "security 1, dividend"),
            (security_start(1) + FIGURES + 3, "security 1, new shares"),
            (desk_start(2, 0), "customer 0, accepted"),
            (desk_start(2, 1) + 2, "customer 1, rejected"),
            (row_start(2, 1, 0), "customer 1, row 0, mark"),
            (row_start(2, 1, 31) + 8, "customer 1, row 31, cancel time"),
        ];
        for (place, words) in table {
            assert_eq!(meaning(place, 2), words);
        }
        let last = fresh(3, 2).len() - 1;
        assert_eq!(meaning(last, 2), "customer 2, row 31, cancel time");
    }
}
