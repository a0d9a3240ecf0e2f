//! How large a state is, and how many rows are open on each of its desks.

use std::fmt;
use std::ops::RangeInclusive;
use std::str::FromStr;

use second::state::{CUSTOMERS, SECURITIES};

/// Of a desk's 32 rows one is left, for the order that comes in.
const OPEN_ROWS: RangeInclusive<u32> = 0..=31;

#[derive(Clone, Copy, Debug, PartialEq, Eq)]
pub struct Size {
    pub customers: u32,
    pub securities: u32,
    pub rows: u32,
}

impl FromStr for Size {
    type Err = String;

    fn from_str(word: &str) -> Result<Size, String> {
        let expected = || {
            format!(
                "{word:?}: expected customers, securities and rows as in 16,64,10: \
                 1 to 256, 1 to 1024 and 0 to 31"
            )
        };
        let numbers: Result<Vec<u32>, _> = word.split(',').map(u32::from_str).collect();
        let Ok(&[customers, securities, rows]) = numbers.as_deref() else {
            return Err(expected());
        };
        let is_size = CUSTOMERS.contains(&customers)
            && SECURITIES.contains(&securities)
            && OPEN_ROWS.contains(&rows);
        is_size
            .then_some(Size {
                customers,
                securities,
                rows,
            })
            .ok_or_else(expected)
    }
}

impl fmt::Display for Size {
    fn fmt(&self, f: &mut fmt::Formatter<'_>) -> fmt::Result {
        write!(f, "{},{},{}", self.customers, self.securities, self.rows)
    }
}
