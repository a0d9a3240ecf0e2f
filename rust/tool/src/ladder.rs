//! Where a price stands among the legal prices.

use std::io::{self, Write};

use events::Price;
use guvontsira::{MAX_POSITION, MAX_PRICE, Nearest};

use crate::table::{self, Column};

/// The lowest and the highest legal price within, as the library gives them.
type Ends = [Option<u32>; 2];

/// The price is 1 to [`MAX_PRICE`].
pub fn write(out: &mut impl Write, price: u32) -> io::Result<()> {
    let nearest = guvontsira::nearest(price).expect("the ladder answers for the price");
    writeln!(out, "{}", standing(price, nearest))?;
    writeln!(out, "next below  {}", shown(at_or_below(price - 1)))?;
    writeln!(out, "next above  {}", shown(at_or_above(price + 1)))?;
    writeln!(out)?;
    let within = [
        ("10 positions", "warn 10", positions(nearest, 10)),
        ("30 percent", "warn 30", percent(price, 30)),
        ("50 percent", "reject Q", percent(price, 50)),
    ];
    let columns = [
        Column::Left("legal within"),
        Column::Right("from"),
        Column::Right("to"),
        Column::Left("outside"),
    ];
    let rows = within.map(|(within, outside, ends)| {
        let [from, to] = ends.map(shown);
        [within.to_string(), from, to, outside.to_string()]
    });
    table::write(out, columns, &rows)
}

pub fn standing(price: u32, nearest: Nearest) -> String {
    let price = Price(price);
    match nearest.legal {
        true => format!("{price} is legal, position {}", nearest.lower),
        false => format!("{price} is not legal, {}", two_positions(nearest)),
    }
}

/// Of a price between two steps.
pub fn two_positions(nearest: Nearest) -> String {
    let Nearest { lower, upper, .. } = nearest;
    let [below, above] = [lower, upper].map(|position| shown(guvontsira::price(position)));
    format!("lower position {lower} ({below}), upper position {upper} ({above})")
}

fn shown(price: Option<u32>) -> String {
    Price(price.unwrap_or(0)).to_string()
}

/// The highest legal price at or below.
fn at_or_below(price: u32) -> Option<u32> {
    guvontsira::price(guvontsira::nearest(price)?.lower)
}

/// The lowest legal price at or above.
fn at_or_above(price: u32) -> Option<u32> {
    guvontsira::price(guvontsira::nearest(price)?.upper)
}

/// Paper 02, request 2: "counts up from the lower and down from the upper
/// position".
fn positions(nearest: Nearest, count: u32) -> Ends {
    let from = nearest.upper.saturating_sub(count).max(1);
    let to = (nearest.lower + count).min(MAX_POSITION);
    [from, to].map(guvontsira::price)
}

/// The rules compare 100 times a price with the percentage, exactly: so the low
/// end is rounded up to whole satang and the high end down.
fn percent(price: u32, percent: u32) -> Ends {
    let low = (price * (100 - percent)).div_ceil(100);
    let high = price * (100 + percent) / 100;
    [at_or_above(low), at_or_below(high.min(MAX_PRICE))]
}

#[cfg(test)]
mod tests {
    use super::*;

    fn from_to(from: u32, to: u32) -> Ends {
        [Some(from), Some(to)]
    }

    fn ten(price: u32) -> Ends {
        positions(guvontsira::nearest(price).unwrap(), 10)
    }

    /// Paper 01, "Along each edge".
    #[test]
    fn edges() {
        assert_eq!(percent(10_00, 50), from_to(5_00, 15_00));
        assert_eq!(percent(10_00, 30), from_to(7_00, 13_00));
        assert_eq!(ten(24_50), from_to(23_50, 26_25));
    }

    #[test]
    fn ends() {
        assert_eq!(ten(1), from_to(1, 11));
        assert_eq!(ten(5), from_to(1, 15));
        assert_eq!(ten(11), from_to(1, 21));
        assert_eq!(ten(12), from_to(2, 22));
        assert_eq!(ten(MAX_PRICE), from_to(99_980_00, MAX_PRICE));
        assert_eq!(ten(99_999_99), from_to(99_980_00, MAX_PRICE));
        assert_eq!(ten(99_979_99), from_to(99_960_00, 99_998_00));
        assert_eq!(percent(1, 50), from_to(1, 1));
        assert_eq!(percent(MAX_PRICE, 30), from_to(70_000_00, MAX_PRICE));
        assert_eq!(percent(99_999_99, 50), from_to(50_000_00, MAX_PRICE));
    }

    /// Paper 02's adjusted close, and prices one satang from a band's first.
    #[test]
    fn between_two_steps() {
        assert_eq!(ten(65_60), from_to(63_25, 68_00));
        assert_eq!(ten(1_99), from_to(1_89, 2_18));
        assert_eq!(ten(2_01), from_to(1_91, 2_20));
        assert_eq!(ten(4_99), from_to(4_80, 5_45));
        assert_eq!(ten(5_01), from_to(4_82, 5_50));
        assert_eq!(ten(9_99), from_to(9_50, 10_90));
        assert_eq!(ten(10_01), from_to(9_55, 11_00));
        assert_eq!(ten(24_99), from_to(24_00, 27_25));
        assert_eq!(ten(25_01), from_to(24_10, 27_50));
        assert_eq!(ten(99_99), from_to(97_50, 104_50));
        assert_eq!(ten(100_01), from_to(97_75, 105_00));
        assert_eq!(ten(199_99), from_to(195_00, 209_00));
        assert_eq!(ten(200_01), from_to(195_50, 210_00));
        assert_eq!(ten(399_99), from_to(390_00, 418_00));
        assert_eq!(ten(400_01), from_to(391_00, 420_00));
    }

    /// A percentage of a price that is no whole satang: 50% of 12.01 is 6.005,
    /// and 150% of it 18.015.
    #[test]
    fn no_whole_satang() {
        assert_eq!(percent(12_01, 50), from_to(6_05, 18_00));
        assert_eq!(percent(3, 50), from_to(2, 4));
        assert_eq!(percent(3, 30), from_to(3, 3));
        assert_eq!(percent(1_99, 30), from_to(1_40, 2_58));
    }

    /// Legal prices and those beside them, by the places of the list of all legal
    /// prices.
    #[test]
    fn beside_every_legal_price() {
        let legal: Vec<u32> = (1..).map_while(guvontsira::price).collect();
        let last = legal.len() - 1;
        let beside = legal
            .iter()
            .flat_map(|&price| [price - 1, price, price + 1]);
        for price in beside.filter(|price| (1..=MAX_PRICE).contains(price)) {
            let upper = legal.partition_point(|&p| p < price);
            let lower = legal.partition_point(|&p| p <= price) - 1;
            let below = upper.checked_sub(1).map(|place| legal[place]);
            assert_eq!(at_or_below(price - 1), below, "{price}");
            let above = legal.get(lower + 1).copied();
            assert_eq!(at_or_above(price + 1), above, "{price}");
            let (from, to) = (upper.saturating_sub(10), last.min(lower + 10));
            assert_eq!(ten(price), from_to(legal[from], legal[to]), "{price}");
            for width in [30, 50] {
                let (low, high) = (price * (100 - width), price * (100 + width));
                let from = legal.partition_point(|&p| p * 100 < low);
                let past = legal.partition_point(|&p| p * 100 <= high);
                let exact = from_to(legal[from], legal[past - 1]);
                assert_eq!(percent(price, width), exact, "{price}");
            }
        }
    }
}
