//! The coded values that events and state words share.

macro_rules! codes {
    ($(#[$doc:meta])* $name:ident { $($variant:ident = $code:literal),+ $(,)? }) => {
        $(#[$doc])*
        #[derive(Clone, Copy, Debug, PartialEq, Eq)]
        pub enum $name {
            $($variant = $code),+
        }

        impl $name {
            /// `None` if the code is outside its list.
            pub fn from_code(code: u32) -> Option<Self> {
                match code {
                    $($code => Some(Self::$variant),)+
                    _ => None,
                }
            }

            pub fn code(self) -> u32 {
                self as u32
            }
        }
    };
}

codes!(
    /// The part of the trading day.
    Session { Closed = 0, PreOpen = 1, Open = 2, Break = 3, PreClose = 4 }
);

codes!(
    /// Where a security is quoted; every board has prices of its own.
    Board { Main = 0, Foreign = 1 }
);

codes!(Side { Buy = 0, Sell = 1 });

codes!(
    /// Type of an order. The row of an `Mp` (market price) order becomes a
    /// `Limit` once the exchange gives the price of what is left.
    OrderType { Limit = 0, Ato = 1, Atc = 2, Mp = 3 }
);

codes!(Channel { FrontOffice = 0, Online = 1, Dma = 2 });

impl Session {
    /// Sessions 1 and 4, in which orders gather for one price.
    pub fn gathers(self) -> bool {
        matches!(self, Session::PreOpen | Session::PreClose)
    }
}

/// A flag is 0 or 1.
pub fn flag(code: u32) -> Option<bool> {
    match code {
        0 => Some(false),
        1 => Some(true),
        _ => None,
    }
}

/// Lots are 1, 50 or 100 shares.
pub fn is_lot(lot: u32) -> bool {
    matches!(lot, 1 | 50 | 100)
}
