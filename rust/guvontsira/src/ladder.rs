//! Prices and their positions on the ladder.

use crate::library;

/// The last price of the ladder, in satang.
pub const MAX_PRICE: u32 = 100_000_00;

/// The position of [`MAX_PRICE`], and so how many legal prices there are.
pub const MAX_POSITION: u32 = 51_100;

/// The ladder positions nearest to a price.
#[derive(Clone, Copy, Debug, PartialEq, Eq)]
pub struct Nearest {
    /// The nearest position at or below the price.
    pub lower: u32,
    /// The nearest position at or above the price.
    pub upper: u32,
    /// Whether the price is on the ladder: then both are its position, and else
    /// it lies between the two.
    pub legal: bool,
}

/// The ladder positions nearest to a price in satang; `None` if it is not 1 to
/// [`MAX_PRICE`].
///
/// ```
/// use guvontsira::{Nearest, nearest, price};
///
/// // A prior close after a right has gone.
/// let adjusted = Nearest { lower: 762, upper: 763, legal: false };
/// assert_eq!(nearest(65_60), Some(adjusted));
/// assert_eq!([762, 763].map(price), [Some(65_50), Some(65_75)]);
/// assert_eq!(nearest(65_50), Some(Nearest { lower: 762, upper: 762, legal: true }));
/// assert_eq!(nearest(100_000_01), None);
/// ```
pub fn nearest(price: u32) -> Option<Nearest> {
    let (lower, upper) = (
        library::lower_position(price),
        library::upper_position(price),
    );
    // The library has both positions of a price or neither.
    (lower != 0).then_some(Nearest {
        lower,
        upper,
        legal: lower == upper,
    })
}

/// The ladder position of a price in satang; `None` if it is off the ladder.
///
/// ```
/// assert_eq!(guvontsira::position(400_00), Some(1300));
/// assert_eq!(guvontsira::position(400_01), None);
/// ```
pub fn position(price: u32) -> Option<u32> {
    Some(library::position(price)).filter(|&position| position != 0)
}

/// The price in satang at a ladder position; `None` if there is no such
/// position.
///
/// ```
/// assert_eq!(guvontsira::price(1300), Some(400_00));
/// assert_eq!(guvontsira::price(0), None);
/// ```
pub fn price(position: u32) -> Option<u32> {
    Some(library::price(position)).filter(|&price| price != 0)
}
