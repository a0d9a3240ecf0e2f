//! What must come of calls with one scratch list (paper 02, request 6): each
//! answer, and each sort of place on a list that is not left equal.

use second::auction::{Answer, Order, SCRATCH_PLACES};

use crate::auction_call::Call;
use crate::auction_outcome::Outcome;

/// Its words, and whether a call has it.
type Shape = (&'static str, fn(&Call, &Outcome) -> bool);

pub const SHAPES: [Shape; 10] = [
    ("one list: refused 14", |_, outcome| {
        outcome.volumes.answer == Answer::Refused(14)
    }),
    ("one list: refused 15", |_, outcome| {
        outcome.volumes.answer == Answer::Refused(15)
    }),
    ("one list: none", |_, outcome| {
        outcome.volumes.answer == Answer::None
    }),
    ("one list: price", |_, outcome| {
        matches!(outcome.volumes.answer, Answer::Price { .. })
    }),
    ("one list: beside the two sums", |_, outcome| {
        !outcome.volumes.is_refused() && !outcome.sums.is_refused()
    }),
    ("one list: one price at two places", has_a_price_twice),
    ("one list: 0 at a limit's place", |call, outcome| {
        cleared_orders(call, outcome).any(Order::is_limit)
    }),
    ("one list: 0 at an ATO's place", |call, outcome| {
        cleared_orders(call, outcome).any(|order| !order.is_limit())
    }),
    ("one list: 0 behind the last order", |call, outcome| {
        let behind = call.orders.len()..SCRATCH_PLACES;
        cleared(call, outcome).any(|place| behind.contains(&place))
    }),
    ("one list: 0 behind 1,024 numbers", |call, outcome| {
        cleared(call, outcome).any(|place| place >= SCRATCH_PLACES)
    }),
];

/// The places where the call found another number and left 0; a refusal leaves
/// none.
fn cleared(call: &Call, outcome: &Outcome) -> impl Iterator<Item = usize> {
    let [volumes] = &outcome.volumes.scratch;
    let numbers = call.volumes.iter().zip(volumes).enumerate();
    numbers
        .filter(|&(_, (&before, &after))| before != 0 && after == 0)
        .map(|(place, _)| place)
}

/// Those at whose places that is so.
fn cleared_orders<'a>(call: &'a Call, outcome: &'a Outcome) -> impl Iterator<Item = &'a Order> {
    cleared(call, outcome).filter_map(|place| call.orders.get(place))
}

/// Two limits of one price, each with its volume, which is not 0.
fn has_a_price_twice(call: &Call, outcome: &Outcome) -> bool {
    let [volumes] = &outcome.volumes.scratch;
    let limits = call.orders.iter().zip(volumes);
    let with_volume = limits.filter(|&(order, &volume)| order.is_limit() && volume > 0);
    let mut prices: Vec<u32> = with_volume.map(|(order, _)| order.price).collect();
    prices.sort_unstable();
    !outcome.volumes.is_refused() && prices.windows(2).any(|pair| pair[0] == pair[1])
}

#[cfg(test)]
mod tests {
    use super::*;
    use crate::auction_outcome::compare;
    use crate::auctions::{ATO, buy, sell};
    use crate::random::Random;

    fn shapes(orders: &[Order], places: usize) -> Vec<&'static str> {
        let call = Call::new(&mut Random::new(1), orders, 0, [1_024, 1_024, places]);
        let outcome = compare(&call).unwrap();
        let came = SHAPES
            .into_iter()
            .filter(|(_, is_so)| is_so(&call, &outcome));
        came.map(|(words, _)| words.trim_start_matches("one list: "))
            .collect()
    }

    #[test]
    fn a_refusal_has_nothing_beside_its_number() {
        let orders = [buy(50_00, 100), sell(50_00, 100), sell(ATO, 1)];
        assert_eq!(shapes(&orders, 1_023), ["refused 14"]);
        let orders = [buy(50_00, 100), sell(50_00, 100), sell(ATO, 0)];
        assert_eq!(shapes(&orders, 1_025), ["refused 15"]);
    }

    #[test]
    fn each_sort_of_place() {
        let full = vec![buy(50_00, 100); 1_024];
        let limits = ["none", "beside the two sums", "0 at a limit's place"];
        assert_eq!(shapes(&full, 1_024), limits);
        let behind = [&limits[..], &["0 behind 1,024 numbers"]].concat();
        assert_eq!(shapes(&full, 1_025), behind);
        let behind = [&limits[..], &["0 behind the last order"]].concat();
        assert_eq!(shapes(&full[1..], 1_024), behind);
        let mut full = [full, vec![sell(ATO, 100)]].concat();
        full.swap_remove(0);
        assert_eq!(
            shapes(&full, 1_024),
            [
                "price",
                "beside the two sums",
                "one price at two places",
                "0 at an ATO's place"
            ]
        );
    }
}
