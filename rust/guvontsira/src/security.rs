//! One security, read out of a state's words.

use crate::codes::Board;

/// The four prices of a board, in satang; 0 is an absent one.
#[derive(Clone, Copy, Debug, PartialEq, Eq)]
pub struct Prices {
    pub projected: u32,
    pub last: u32,
    pub bid: u32,
    pub offer: u32,
}

/// What a figures event has left of one security.
#[derive(Clone, Copy, Debug, PartialEq, Eq)]
pub struct Figures {
    /// In satang; 0 is an absent one.
    pub dividend: u32,
    /// In satang; 0 is an absent one.
    pub subscription: u32,
    pub old_shares: u16,
    pub new_shares: u16,
}

/// The floor and the ceiling of the day, in satang: outside of them a limit on the
/// main board gets C.
#[derive(Clone, Copy, Debug, PartialEq, Eq)]
pub struct Range {
    pub floor: u32,
    pub ceiling: u32,
}

/// What setup, prices and figures events have left of one security.
#[derive(Clone, Copy, Debug, PartialEq, Eq)]
pub struct Security {
    /// 1, 50 or 100.
    pub lot: u8,
    /// Whether there is no ceiling and floor.
    pub free: bool,
    pub first_day: bool,
    /// In satang, also off the ladder; 0 is an absent one.
    pub prior_close: u32,
    /// In satang, also off the ladder; 0 is an absent one.
    pub ipo: u32,
    pub main: Prices,
    pub foreign: Prices,
    /// `None` without figures.
    pub figures: Option<Figures>,
}

impl Security {
    pub fn prices(&self, board: Board) -> Prices {
        match board {
            Board::Main => self.main,
            Board::Foreign => self.foreign,
        }
    }

    /// `None` if the lot or a flag is outside its list, or a count of shares does
    /// not fit its event.
    pub(crate) fn read(words: &[u32]) -> Option<Security> {
        let &[lot, free, first_day, prior_close, ipo, ref rest @ ..] = words else {
            return None;
        };
        let (main, rest) = rest.split_at_checked(4)?;
        let (foreign, figures) = rest.split_at_checked(4)?;
        Some(Security {
            lot: u8::try_from(lot)
                .ok()
                .filter(|lot| [1, 50, 100].contains(lot))?,
            free: flag(free)?,
            first_day: flag(first_day)?,
            prior_close,
            ipo,
            main: Prices::read(main)?,
            foreign: Prices::read(foreign)?,
            figures: Figures::read(figures)?,
        })
    }
}

impl Prices {
    fn read(words: &[u32]) -> Option<Prices> {
        let &[projected, last, bid, offer] = words else {
            return None;
        };
        Some(Prices {
            projected,
            last,
            bid,
            offer,
        })
    }
}

impl Figures {
    /// All four words are zero without figures.
    fn read(words: &[u32]) -> Option<Option<Figures>> {
        let &[dividend, subscription, old_shares, new_shares] = words else {
            return None;
        };
        let figures = Figures {
            dividend,
            subscription,
            old_shares: old_shares.try_into().ok()?,
            new_shares: new_shares.try_into().ok()?,
        };
        Some((words != [0; 4]).then_some(figures))
    }
}

fn flag(word: u32) -> Option<bool> {
    match word {
        0 => Some(false),
        1 => Some(true),
        _ => None,
    }
}
