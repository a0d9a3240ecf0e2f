//! What an auction would give.

use std::ops::RangeInclusive;

use crate::library::AuctionNumbers;

/// What an auction would give.
#[derive(Clone, Copy, Debug, PartialEq, Eq, Hash)]
pub enum AuctionAnswer {
    /// A price in satang, and the volume that would be traded at it.
    Price { price: u32, volume: u64 },
    /// At no limit's price is there volume.
    None,
    /// Refused with 14, more than [`MAX_AUCTION_ORDERS`](crate::MAX_AUCTION_ORDERS)
    /// orders; with 15, an order whose price is off the ladder or whose volume is
    /// not 1 to [`MAX_VOLUME`](crate::MAX_VOLUME); or, by
    /// [`CurrentAuction::take`](crate::CurrentAuction::take) alone, with 16, a place
    /// where no order is held.
    Refused(u8),
}

/// The refusals of a call that is handed orders.
pub(super) const OF_ORDERS: RangeInclusive<u8> = 14..=15;

/// The refusals of a call that is handed a place.
pub(super) const OF_A_PLACE: RangeInclusive<u8> = 14..=16;

/// As with answers to events, a refusal that the call never gives is no place to go on
/// from.
pub(super) fn known(numbers: AuctionNumbers, refusals: RangeInclusive<u8>) -> AuctionAnswer {
    let AuctionNumbers {
        volume,
        price,
        refusal,
    } = numbers;
    match u8::try_from(refusal) {
        Ok(0) if price == 0 => AuctionAnswer::None,
        Ok(0) => AuctionAnswer::Price { price, volume },
        Ok(number) if refusals.contains(&number) => AuctionAnswer::Refused(number),
        _ => panic!("the linked library refuses with {refusal}, which is no refusal of this call"),
    }
}

#[cfg(test)]
mod tests {
    use super::*;

    fn refused(refusal: u32) -> AuctionNumbers {
        AuctionNumbers {
            volume: 0,
            price: 0,
            refusal,
        }
    }

    #[test]
    fn each_call_has_its_refusals() {
        for number in [14, 15] {
            let answer = AuctionAnswer::Refused(number);
            assert_eq!(known(refused(number.into()), OF_ORDERS), answer);
            assert_eq!(known(refused(number.into()), OF_A_PLACE), answer);
        }
        let answer = AuctionAnswer::Refused(16);
        assert_eq!(known(refused(16), OF_A_PLACE), answer);
    }

    #[test]
    #[should_panic(expected = "refuses with 16")]
    fn orders_have_no_place() {
        known(refused(16), OF_ORDERS);
    }

    #[test]
    #[should_panic(expected = "refuses with 17")]
    fn an_unknown_refusal() {
        known(refused(17), OF_A_PLACE);
    }

    /// Of its low eight bits 270 has 14.
    #[test]
    #[should_panic(expected = "refuses with 270")]
    fn a_refusal_of_more_bits() {
        known(refused(270), OF_A_PLACE);
    }
}
