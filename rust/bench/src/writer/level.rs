//! Where the prices of each security stand.

/// A legal price, and the ladder's step around it.
#[derive(Clone, Copy)]
pub struct Level {
    pub price: u32,
    pub step: u32,
}

/// In four bands of the ladder: in one alone, a price test that is fast there
/// and slow elsewhere would look good.
const LEVELS: [Level; 4] = [
    level(50_00, 25),
    level(15_00, 10),
    level(150_00, 50),
    level(500_00, 2_00),
];

const fn level(price: u32, step: u32) -> Level {
    Level { price, step }
}

impl Level {
    /// Two neighbours share one, because every other security is free: so each
    /// level has both.
    pub fn of(security: u16) -> Level {
        LEVELS[usize::from(security / 2) % LEVELS.len()]
    }

    pub fn bid(self) -> u32 {
        self.price - self.step
    }

    pub fn offer(self) -> u32 {
        self.price + self.step
    }
}

#[cfg(test)]
mod tests {
    use second::ladder::position;

    use super::*;

    #[test]
    fn so_far_as_orders_go_the_step_is_the_same() {
        for Level { price, step } in LEVELS {
            let middle = position(price).unwrap();
            for away in 0..=1 + 7 + 11 {
                assert_eq!(position(price - away * step), Some(middle - away));
                assert_eq!(position(price + away * step), Some(middle + away));
            }
        }
    }

    #[test]
    fn one_security_stands_at_50_baht() {
        assert_eq!(Level::of(0).price, 50_00);
    }
}
