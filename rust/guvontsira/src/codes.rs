//! The codes that events and words share.

macro_rules! codes {
    ($(#[$doc:meta])* $name:ident { $($variant:ident = $code:literal),+ $(,)? }) => {
        $(#[$doc])*
        #[derive(Clone, Copy, Debug, PartialEq, Eq, Hash)]
        #[repr(u8)]
        pub enum $name {
            $($variant = $code),+
        }

        impl $name {
            pub const ALL: &[Self] = &[$(Self::$variant),+];

            /// `None` if the code is outside its list.
            pub fn from_code(code: u32) -> Option<Self> {
                match code {
                    $($code => Some(Self::$variant),)+
                    _ => None,
                }
            }

            pub fn code(self) -> u8 {
                self as u8
            }
        }
    };
}

codes!(
    /// The part of the trading day.
    Session { Closed = 0, PreOpen = 1, Open = 2, Break = 3, PreClose = 4 }
);
codes!(Board { Main = 0, Foreign = 1 });
codes!(Side { Buy = 0, Sell = 1 });
codes!(
    /// The type of an order. `Mp` is market price: its row has no price until
    /// an [`Event::Rest`] makes it a limit.
    ///
    /// [`Event::Rest`]: crate::Event::Rest
    OrderType { Limit = 0, Ato = 1, Atc = 2, Mp = 3 }
);
codes!(
    /// How an order came in.
    Channel { FrontOffice = 0, Online = 1, Dma = 2 }
);
codes!(
    /// Of a row that is not free.
    Mark { Open = 1, Cancelled = 2 }
);
