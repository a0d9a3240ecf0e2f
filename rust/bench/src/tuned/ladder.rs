//! Legal prices in satang and their positions. Every step stands as a literal: to
//! divide by one is a multiplication.

pub const LAST_PRICE: u32 = 10_000_000;

pub fn is_legal(price: u32) -> bool {
    price != 0 && is_legal_or_absent(price)
}

/// Every band of the ladder begins at a multiple of its step.
pub fn is_legal_or_absent(price: u32) -> bool {
    if price < 25_00 {
        match price {
            0..2_00 => true,
            2_00..5_00 => price.is_multiple_of(2),
            5_00..10_00 => price.is_multiple_of(5),
            _ => price.is_multiple_of(10),
        }
    } else {
        match price {
            25_00..100_00 => price.is_multiple_of(25),
            100_00..200_00 => price.is_multiple_of(50),
            200_00..400_00 => price.is_multiple_of(1_00),
            _ => price.is_multiple_of(2_00) && price <= LAST_PRICE,
        }
    }
}

/// The nearest position at or below a price from 1 to 10,000,000, and the nearest
/// at or above it.
pub fn positions(price: u32) -> (u32, u32) {
    match price {
        0..2_00 => (price, price),
        2_00..5_00 => in_band::<2>(price, 2_00, 200),
        5_00..10_00 => in_band::<5>(price, 5_00, 350),
        10_00..25_00 => in_band::<10>(price, 10_00, 450),
        25_00..100_00 => in_band::<25>(price, 25_00, 600),
        100_00..200_00 => in_band::<50>(price, 100_00, 900),
        200_00..400_00 => in_band::<1_00>(price, 200_00, 1100),
        400_00.. => in_band::<2_00>(price, 400_00, 1300),
    }
}

fn in_band<const STEP: u32>(price: u32, first_price: u32, first_position: u32) -> (u32, u32) {
    let above = price - first_price;
    let lower = first_position + above / STEP;
    (lower, lower + u32::from(!above.is_multiple_of(STEP)))
}

#[cfg(test)]
mod tests {
    use super::*;

    #[test]
    fn every_price_as_in_the_second_implementation() {
        for price in (0..=LAST_PRICE + 1_000).chain([u32::MAX]) {
            let nearest = second::ladder::nearest(price);
            assert_eq!(is_legal(price), nearest.is_some_and(|near| near.legal));
            assert_eq!(is_legal_or_absent(price), price == 0 || is_legal(price));
            if let Some(near) = nearest {
                assert_eq!(positions(price), (near.lower, near.upper), "{price}");
            }
        }
    }
}
