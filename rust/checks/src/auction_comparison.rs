//! One call of the auction (paper 02, requests 5 and 6), by a linked function and
//! by the second implementation: the answer and every word of the scratch lists.

use guvontsira::library::{AuctionNumbers, AuctionOrder};
use second::auction::{Answer, Order};

use crate::auction_call::Call;
use crate::comparison::{Lent, first_unlike};

/// Stand on both sides of the orders that are lent: an answer by one of them
/// would be refusal 15.
pub const NO_ORDER: AuctionOrder = AuctionOrder {
    side: 2,
    price: u32::MAX,
    volume: 0,
};
const ORDERS_AROUND: usize = 4;

/// What both gave and left, with so many scratch lists.
#[derive(Clone, Debug)]
pub struct Left<const LISTS: usize> {
    pub answer: Answer,
    pub scratch: [Vec<u64>; LISTS],
}

impl<const LISTS: usize> Left<LISTS> {
    pub fn is_refused(&self) -> bool {
        matches!(self.answer, Answer::Refused(_))
    }
}

pub fn of_library(order: &Order) -> AuctionOrder {
    AuctionOrder {
        side: order.side,
        price: order.price,
        volume: order.volume,
    }
}

/// The library's numbers for an answer of the second implementation.
pub fn numbers(answer: Answer) -> AuctionNumbers {
    let (price, volume, refusal) = match answer {
        Answer::Price { price, volume } => (price, volume, 0),
        Answer::None => (0, 0, 0),
        Answer::Refused(number) => (0, 0, number.into()),
    };
    AuctionNumbers {
        volume,
        price,
        refusal,
    }
}

/// A call with these scratch lists, each with what it is for. `Err` says how the
/// two part.
pub fn beside<const LISTS: usize>(
    call: &Call,
    lists: [(&str, &Vec<u64>); LISTS],
    gate: fn(&[AuctionOrder], u32, [&mut [u64]; LISTS]) -> AuctionNumbers,
    second: fn(&[Order], u32, [&mut [u64]; LISTS]) -> Answer,
) -> Result<Left<LISTS>, String> {
    let orders = call.orders.iter().map(of_library);
    let around = [NO_ORDER; ORDERS_AROUND];
    let listed: Vec<AuctionOrder> = around.into_iter().chain(orders).chain(around).collect();
    let lent_orders = listed.clone();
    let mut lent = lists.map(|(_, words)| {
        let mut lent = Lent::default();
        lent.set(words);
        lent
    });
    let gate = gate(
        &lent_orders[ORDERS_AROUND..][..call.orders.len()],
        call.reference,
        lent.each_mut().map(Lent::words_mut),
    );

    let mut scratch = lists.map(|(_, words)| words.clone());
    let answer = second(
        &call.orders,
        call.reference,
        scratch.each_mut().map(Vec::as_mut_slice),
    );

    let names = lists.map(|(name, _)| name);
    let unlike = unlike(names, &lent.each_ref().map(Lent::words), &scratch);
    if gate != numbers(answer) {
        let words = unlike.unwrap_or("the scratch lists are alike".into());
        return Err(format!(
            "the gate says {}, the second implementation {}; {words}",
            words_of(gate),
            words_of(numbers(answer))
        ));
    }
    if let Some(unlike) = unlike {
        return Err(format!("both say {}; {unlike}", words_of(gate)));
    }
    if !lent.iter().all(Lent::is_guard_whole) {
        return Err("a word beside a scratch list was written".into());
    }
    if lent_orders != listed {
        return Err("an order was written".into());
    }
    let is_equal = scratch.iter().eq(lists.map(|(_, words)| words));
    let left = Left { answer, scratch };
    if left.is_refused() && !is_equal {
        return Err(format!("{answer} changed a scratch list"));
    }
    Ok(left)
}

/// The first place where the scratch lists are not alike.
fn unlike<const LISTS: usize>(
    names: [&str; LISTS],
    gate: &[&[u64]; LISTS],
    second: &[Vec<u64>; LISTS],
) -> Option<String> {
    let lists = names.into_iter().zip(gate.iter().zip(second));
    lists.into_iter().find_map(|(name, (gate, second))| {
        let place = first_unlike(gate, second)?;
        let (gate, second) = (gate[place], second[place]);
        Some(format!(
            "place {place} of the {name}' list is {gate} in the gate and {second} in the second \
             implementation"
        ))
    })
}

pub fn words_of(numbers: AuctionNumbers) -> String {
    match numbers {
        AuctionNumbers {
            volume: 0,
            price: 0,
            refusal: 0,
        } => "none".into(),
        AuctionNumbers {
            volume: 0,
            price: 0,
            refusal,
        } => format!("refused {refusal}"),
        AuctionNumbers {
            volume,
            price,
            refusal: 0,
        } => format!("price {price} volume {volume}"),
        _ => format!("{numbers:?}"),
    }
}

#[cfg(test)]
mod tests {
    use super::*;

    #[test]
    fn a_place_that_differs() {
        let unlike = |second: [Vec<u64>; 2]| {
            let gate = [&[1, 2, 3][..], &[4, 5, 6]];
            unlike(["buyers", "sellers"], &gate, &second)
        };
        assert_eq!(unlike([vec![1, 2, 3], vec![4, 5, 6]]), None);
        assert_eq!(
            unlike([vec![1, 2, 3], vec![4, 7, 6]]).unwrap(),
            "place 1 of the sellers' list is 5 in the gate and 7 in the second implementation"
        );
    }
}
