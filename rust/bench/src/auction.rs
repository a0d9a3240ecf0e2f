//! The books of orders that the auction (paper 02, requests 5 and 6) is timed over.

mod book;
mod call;
pub mod current;

use std::hint::black_box;
use std::time::{Duration, Instant};

use crate::compare::{Difference, first_unlike};
use crate::implementation::Implementation;
use crate::measure::medians;
use book::{Book, Prices, Random};
pub use call::Call;
use call::{Given, Scratch, scratch};

pub const NAME: &str = "auction";

/// How many orders a book has. 1,024 are the most.
const LENGTHS: [usize; 3] = [16, 128, 1_024];
/// All books of a line together have so many, so that each line has several
/// books and none takes long.
const ORDERS: usize = 8_192;

/// What one line of the table is measured over.
pub struct Books {
    pub prices: Prices,
    /// Orders in each book.
    pub length: usize,
    reference: u32,
    books: Vec<Book>,
}

impl Books {
    /// The same books for every run and for every implementation.
    pub fn all() -> Vec<Books> {
        let lines = [Prices::Shared, Prices::Different]
            .into_iter()
            .flat_map(|prices| LENGTHS.map(|length| (prices, length)));
        lines
            .map(|(prices, length)| Books::prepare(prices, length))
            .collect()
    }

    fn prepare(prices: Prices, length: usize) -> Books {
        let mut random = Random(1);
        let books = (0..ORDERS / length).map(|_| prices.book(length, &mut random));
        Books {
            prices,
            length,
            reference: prices.middle(length),
            books: books.collect(),
        }
    }

    /// How many calls one repeat makes.
    pub fn len(&self) -> usize {
        self.books.len()
    }

    /// The first implementation of several is the gate; one alone is not run.
    pub fn compare(
        &self,
        call: Call,
        implementations: &[Implementation],
    ) -> Result<(), Difference> {
        self.compare_by(implementations, |which, book, lists| {
            call.of(which)(book, self.reference, lists).to_string()
        })
    }

    fn compare_by(
        &self,
        implementations: &[Implementation],
        answer: impl Fn(Implementation, &Book, &mut Scratch) -> String,
    ) -> Result<(), Difference> {
        let &[gate, _, ..] = implementations else {
            return Ok(());
        };
        let outcome = |implementation, book| {
            let mut lists = scratch();
            let answer = answer(implementation, book, &mut lists);
            (answer, lists.concat())
        };
        for (number, book) in self.books.iter().enumerate() {
            let expected = outcome(gate, book);
            for &other in &implementations[1..] {
                let given = outcome(other, book);
                if expected.0 != given.0 {
                    let what = format!("answer to book {number}");
                    return Err(Difference::new(other, what, [expected.0, given.0]));
                }
                if let Some((place, values)) = first_unlike(&expected.1, &given.1) {
                    let what = format!("word {place} of the scratch lists after book {number}");
                    return Err(Difference::new(other, what, values));
                }
            }
        }
        Ok(())
    }

    /// Nanoseconds a call: for each call those of each implementation. All of them
    /// take turns.
    pub fn measure(
        &self,
        calls: &[Call],
        implementations: &[Implementation],
        repeats: usize,
    ) -> Vec<Vec<f64>> {
        let of = |&call: &Call| implementations.iter().map(move |&which| call.of(which));
        let timed: Vec<_> = calls.iter().flat_map(of).collect();
        let mut lists = vec![scratch(); timed.len()];
        let medians = medians(timed.len(), repeats, |place| {
            [self.time(timed[place], &mut lists[place])]
        });
        let times = medians.into_iter();
        let times: Vec<f64> = times
            .map(|[time]| time.as_nanos() as f64 / self.len() as f64)
            .collect();
        let lines = times.chunks(implementations.len());
        lines.map(<[f64]>::to_vec).collect()
    }

    /// How long it takes with all books.
    fn time(&self, call: fn(&Book, u32, &mut Scratch) -> Given, lists: &mut Scratch) -> Duration {
        let begin = Instant::now();
        for book in &self.books {
            black_box(call(black_box(book), self.reference, lists));
        }
        begin.elapsed()
    }
}

#[cfg(test)]
mod tests {
    use super::*;

    fn books_and_calls() -> impl Iterator<Item = (Books, Call)> {
        let calls = Call::ALL.into_iter();
        calls.flat_map(|call| Books::all().into_iter().map(move |books| (books, call)))
    }

    #[test]
    fn all_are_alike() {
        for (books, call) in books_and_calls() {
            assert_eq!(books.compare(call, &Implementation::AUCTION), Ok(()));
        }
    }

    #[test]
    fn every_book_gives_a_price() {
        for (books, call) in books_and_calls() {
            for book in &books.books {
                let call = call.of(Implementation::Second);
                let answer = call(book, books.reference, &mut scratch()).to_string();
                assert!(answer.starts_with("price "), "{answer}");
            }
        }
    }

    #[test]
    fn an_answer_that_differs() {
        let books = Books::prepare(Prices::Shared, 16);
        let difference = books.compare_by(&Implementation::AUCTION, |which, _, _| {
            String::from(which.name())
        });
        assert_eq!(
            difference.unwrap_err().to_string(),
            "answer to book 0: gate gate, second second"
        );
    }

    #[test]
    fn a_word_that_differs() {
        let books = Books::prepare(Prices::Different, 1_024);
        let difference = books.compare_by(&Implementation::AUCTION, |which, _, lists| {
            lists[1][7] = u64::from(which == Implementation::Second);
            String::new()
        });
        assert_eq!(
            difference.unwrap_err().to_string(),
            "word 1031 of the scratch lists after book 0: gate 0, second 1"
        );
    }

    #[test]
    fn books_of_a_line() {
        let calls: Vec<usize> = Books::all().iter().map(Books::len).collect();
        assert_eq!(calls, [512, 64, 8, 512, 64, 8]);
    }
}
