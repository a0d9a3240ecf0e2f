//! The daily ceiling and floor of a security (paper 02, request 3).

use crate::ladder::{self, FIRST_PRICE, LAST_PRICE};
use crate::state::{Figures, Header, Security, present};

/// From this prior close on, 1.00 baht, the range is taken from the base.
const LEAST_CLOSE_WITH_BASE: u32 = 1_00;

/// The legal prices from `floor` to `ceiling`; none where the floor is above
/// the ceiling.
#[derive(Clone, Copy, Debug, PartialEq, Eq)]
pub struct Range {
    pub floor: u32,
    pub ceiling: u32,
}

impl Range {
    /// `None` for a security that is free or has no prior close.
    pub fn of(security: &Security) -> Option<Range> {
        if security.free {
            return None;
        }
        let close = present(security.prior_close)?;
        if close < LEAST_CLOSE_WITH_BASE {
            return Some(Range {
                floor: FIRST_PRICE,
                ceiling: 2 * close,
            });
        }
        let base = Base::of(close, security.figures.as_ref());
        Some(Range {
            floor: base.floor(),
            ceiling: base.ceiling(),
        })
    }

    pub fn has(&self, price: u32) -> bool {
        self.floor <= price && price <= self.ceiling
    }
}

/// "kept as two whole numbers": a fraction in satang.
struct Base {
    numerator: u128,
    denominator: u128,
}

impl Base {
    fn of(close: u32, figures: Option<&Figures>) -> Base {
        let whole = Base {
            numerator: close.into(),
            denominator: 1,
        };
        match figures {
            Some(figures) => whole.min(Base::after_right(close, figures)),
            None => whole,
        }
    }

    /// ((prior close − dividend) × old + subscription × new) / (old + new)
    fn after_right(close: u32, figures: &Figures) -> Base {
        let [dividend, subscription, old, new] = figures.words().map(u128::from);
        Base {
            numerator: (u128::from(close) - dividend) * old + subscription * new,
            denominator: old + new,
        }
    }

    fn min(self, other: Base) -> Base {
        if self.numerator * other.denominator <= other.numerator * self.denominator {
            self
        } else {
            other
        }
    }

    /// "130% of the base, down to a legal price and at most 10,000,000", at
    /// least 1.
    fn ceiling(&self) -> u32 {
        let satang = self.numerator * 130 / (self.denominator * 100);
        let most = satang.min(LAST_PRICE.into()) as u32;
        let down = (FIRST_PRICE..=most)
            .rev()
            .find(|&price| ladder::legal(price));
        down.unwrap_or(FIRST_PRICE)
    }

    /// "70%, up to one", at least 1.
    fn floor(&self) -> u32 {
        let satang = (self.numerator * 70).div_ceil(self.denominator * 100);
        // The base is no more than the prior close, so a legal price is above.
        let least = satang.clamp(FIRST_PRICE.into(), LAST_PRICE.into()) as u32;
        let up = (least..=LAST_PRICE).find(|&price| ladder::legal(price));
        up.unwrap_or(LAST_PRICE)
    }
}

/// The floor of a security in lent words; 0 where it has no range.
pub fn floor(words: &[u32], security: u32) -> u32 {
    in_words(words, security).map_or(0, |range| range.floor)
}

/// The ceiling of a security in lent words; 0 where it has no range.
pub fn ceiling(words: &[u32], security: u32) -> u32 {
    in_words(words, security).map_or(0, |range| range.ceiling)
}

fn in_words(words: &[u32], security: u32) -> Option<Range> {
    let place = Header::read(words)?.security_place(security)?;
    Range::of(&Security::read(&words[place])?)
}
