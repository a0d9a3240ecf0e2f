//! Legal prices in satang and their positions.

/// The lowest legal price, 0.01 baht.
pub const FIRST_PRICE: u32 = 1;
/// The highest legal price, 100,000.00 baht.
pub const LAST_PRICE: u32 = 10_000_000;
/// How many legal prices there are; the last one's position.
pub const POSITIONS: u32 = 51_100;

/// A stretch of the ladder with one step. It ends where the next one begins.
#[derive(Clone, Copy)]
struct Band {
    first_price: u32,
    step: u32,
    first_position: u32,
}

const fn band(first_price: u32, step: u32, first_position: u32) -> Band {
    Band {
        first_price,
        step,
        first_position,
    }
}

const BANDS: [Band; 8] = [
    band(1, 1, 1),
    band(2_00, 2, 200),
    band(5_00, 5, 350),
    band(10_00, 10, 450),
    band(25_00, 25, 600),
    band(100_00, 50, 900),
    band(200_00, 1_00, 1100),
    band(400_00, 2_00, 1300),
];

/// Where a price stands among the legal ones.
#[derive(Clone, Copy, Debug, PartialEq, Eq)]
pub struct Nearest {
    /// The nearest position at or below the price.
    pub lower: u32,
    /// The nearest position at or above it.
    pub upper: u32,
    /// Is the price itself on the ladder? Then both positions are its own.
    pub legal: bool,
}

/// Paper 02, request 2: "The ladder now answers for each price from 1 to
/// 10,000,000"; "for others, none".
// Inlined, so that `position` and `legal` work out only what they answer.
#[inline(always)]
pub fn nearest(price: u32) -> Option<Nearest> {
    if price > LAST_PRICE {
        return None;
    }
    match BANDS.iter().rposition(|band| band.first_price <= price)? {
        0 => Some(within::<0>(price)),
        1 => Some(within::<1>(price)),
        2 => Some(within::<2>(price)),
        3 => Some(within::<3>(price)),
        4 => Some(within::<4>(price)),
        5 => Some(within::<5>(price)),
        6 => Some(within::<6>(price)),
        7 => Some(within::<7>(price)),
        _ => unreachable!("there are eight bands"),
    }
}

/// A price in the band of this place in the table. The place is a constant, so
/// that the compiler knows the step and makes multiplications of the divisions:
/// every price in every record that is read comes here.
fn within<const BAND: usize>(price: u32) -> Nearest {
    let Band {
        first_price,
        step,
        first_position,
    } = const { BANDS[BAND] };
    let above = price - first_price;
    Nearest {
        lower: first_position + above / step,
        // Every band is a whole number of its steps long, so that one step past
        // its last position is the next band's first.
        upper: first_position + above.div_ceil(step),
        legal: above.is_multiple_of(step),
    }
}

/// The position of a legal price; `None` if the price is off the ladder.
pub fn position(price: u32) -> Option<u32> {
    let nearest = nearest(price)?;
    nearest.legal.then_some(nearest.lower)
}

/// The price at a position; `None` if there is no such position.
pub fn price(position: u32) -> Option<u32> {
    if position > POSITIONS {
        return None;
    }
    let band = BANDS
        .iter()
        .rev()
        .find(|band| band.first_position <= position)?;
    Some(band.first_price + (position - band.first_position) * band.step)
}

/// Is this price on the ladder? 0, which means absent, is not.
pub fn legal(price: u32) -> bool {
    position(price).is_some()
}

#[cfg(test)]
mod tests {
    use super::*;

    #[test]
    fn positions_of_the_paper() {
        let first_of_each_band = [
            (1, 1),
            (2_00, 200),
            (5_00, 350),
            (10_00, 450),
            (25_00, 600),
            (100_00, 900),
            (200_00, 1100),
            (400_00, 1300),
        ];
        for (satang, expected) in first_of_each_band {
            assert_eq!(position(satang), Some(expected));
        }
        assert_eq!(position(1_99), Some(199));
        assert_eq!(position(LAST_PRICE), Some(POSITIONS));
        assert_eq!(price(1), Some(FIRST_PRICE));
    }

    #[test]
    fn every_price_has_its_position_and_back() {
        let mut expected = 0;
        for satang in 0..=LAST_PRICE + 1_000 {
            if let Some(found) = position(satang) {
                expected += 1;
                assert_eq!(found, expected);
                assert_eq!(price(found), Some(satang));
            }
        }
        assert_eq!(expected, POSITIONS);
    }

    fn nearest_is(satang: u32, lower: u32, upper: u32, legal: bool) {
        let expected = Nearest {
            lower,
            upper,
            legal,
        };
        assert_eq!(nearest(satang), Some(expected), "{satang}");
    }

    #[test]
    fn between_two_steps() {
        nearest_is(65_60, 762, 763, false);
        nearest_is(65_50, 762, 762, true);
        nearest_is(65_75, 763, 763, true);
        for satang in 65_51..65_75 {
            nearest_is(satang, 762, 763, false);
        }
        // Below 2.00 every satang is a step.
        nearest_is(FIRST_PRICE, 1, 1, true);
        nearest_is(1_99, 199, 199, true);
        nearest_is(LAST_PRICE, POSITIONS, POSITIONS, true);
        nearest_is(LAST_PRICE - 1, POSITIONS - 1, POSITIONS, false);
    }

    #[test]
    fn on_both_sides_of_a_first_price() {
        let first_of_each_later_band = [
            (5_00, 350),
            (10_00, 450),
            (25_00, 600),
            (100_00, 900),
            (200_00, 1100),
            (400_00, 1300),
        ];
        nearest_is(2_01, 200, 201, false);
        for (satang, position) in first_of_each_later_band {
            nearest_is(satang - 1, position - 1, position, false);
            nearest_is(satang, position, position, true);
            nearest_is(satang + 1, position, position + 1, false);
        }
    }

    #[test]
    fn none_for_other_prices() {
        for satang in [0, LAST_PRICE + 1, LAST_PRICE + 200, u32::MAX] {
            assert_eq!(nearest(satang), None, "{satang}");
        }
    }

    #[test]
    fn off_the_ladder() {
        for satang in [0, 2_01, 4_99, 5_01, 10_05, 25_10, 100_25, 200_50, 401_00] {
            assert!(!legal(satang), "{satang}");
        }
        assert!(!legal(LAST_PRICE + 1));
        assert!(!legal(LAST_PRICE + 200));
        assert!(!legal(u32::MAX));
        assert_eq!(price(0), None);
        assert_eq!(price(POSITIONS + 1), None);
        assert_eq!(price(u32::MAX), None);
    }
}
