//! The library's calls that give the price of an auction, and the same of the
//! second implementation.

use std::fmt;

use guvontsira::library::{self, AuctionNumbers};
use second::auction::{Answer, SCRATCH_PLACES, auction, auction_volumes};

use super::book::Book;
use crate::implementation::Implementation;

#[derive(Clone, Copy, Debug, PartialEq, Eq)]
pub enum Call {
    /// With two scratch lists (request 5).
    Sums,
    /// With one (request 6).
    Volumes,
}

/// As many lists as the call with the most is lent; another takes the first of
/// them.
pub type Scratch = [Vec<u64>; 2];

/// A call does not read what it finds in them. It is not 0, so that a comparison
/// sees where request 6's list is set to 0.
pub fn scratch() -> Scratch {
    [(); 2].map(|()| vec![u64::MAX; SCRATCH_PLACES])
}

impl Call {
    pub const ALL: [Call; 2] = [Call::Sums, Call::Volumes];

    pub fn name(self) -> &'static str {
        match self {
            Call::Sums => "auction",
            Call::Volumes => "volumes",
        }
    }

    pub fn named(name: &str) -> Option<Call> {
        Call::ALL.into_iter().find(|call| call.name() == name)
    }

    /// This call of an implementation, with a book and a reference.
    pub fn of(self, which: Implementation) -> fn(&Book, u32, &mut Scratch) -> Given {
        match (self, which) {
            (Call::Sums, Implementation::Gate) => |book, reference, [buyers, sellers]| {
                Given::Gate(library::auction(&book.gate, reference, buyers, sellers))
            },
            (Call::Sums, Implementation::Second) => |book, reference, [buyers, sellers]| {
                Given::Second(auction(&book.second, reference, buyers, sellers))
            },
            (Call::Volumes, Implementation::Gate) => |book, reference, [volumes, _]| {
                Given::Gate(library::auction_volumes(&book.gate, reference, volumes))
            },
            (Call::Volumes, Implementation::Second) => |book, reference, [volumes, _]| {
                Given::Second(auction_volumes(&book.second, reference, volumes))
            },
            (_, Implementation::Tuned) => unreachable!("the tuned one has no auction"),
        }
    }
}

/// What a call gives, as the implementation has it.
#[derive(Clone, Copy, Debug)]
pub enum Given {
    Gate(AuctionNumbers),
    Second(Answer),
}

/// The words of the second implementation, for both.
impl fmt::Display for Given {
    fn fmt(&self, f: &mut fmt::Formatter<'_>) -> fmt::Result {
        match *self {
            Given::Second(answer) => answer.fmt(f),
            Given::Gate(AuctionNumbers {
                volume: 0,
                price: 0,
                refusal: 0,
            }) => f.write_str("none"),
            Given::Gate(AuctionNumbers {
                volume,
                price,
                refusal: 0,
            }) => write!(f, "price {price} volume {volume}"),
            Given::Gate(AuctionNumbers { refusal, .. }) => write!(f, "refused {refusal}"),
        }
    }
}
