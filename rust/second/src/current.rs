//! An auction's list kept current while "orders come and go" (paper 02, request 7).
//!
//! "The list is lent with its count": the orders at places below the count, from
//! 0, are held. What stands at the count or past it is never asked. Either call
//! checks everything before it writes, so "a refusal leaves list, count and
//! scratch equal".

use crate::answer::Refusal;
use crate::auction::{self, Answer, MAX_ORDERS, Order};

/// "places past the count are zero"
const ZERO: Order = Order {
    side: 0,
    price: 0,
    volume: 0,
};

/// "one adds an order at the end"; the count is one more afterwards.
pub fn add(
    orders: &mut [Order],
    count: &mut usize,
    order: Order,
    reference: u32,
    volumes: &mut [u64],
) -> Answer {
    if let Err(refusal) = check_add(orders, *count, &order, volumes) {
        return refusal.into();
    }
    orders[*count] = order;
    *count += 1;
    work_out(orders, *count, reference, volumes)
}

/// "one takes out the order at a given place and closes the gap": each order
/// behind it stands one place lower afterwards, and the count is one less.
pub fn take(
    orders: &mut [Order],
    count: &mut usize,
    place: usize,
    reference: u32,
    volumes: &mut [u64],
) -> Answer {
    if let Err(refusal) = check_take(orders, *count, place, volumes) {
        return refusal.into();
    }
    orders.copy_within(place + 1..*count, place);
    *count -= 1;
    work_out(orders, *count, reference, volumes)
}

/// "Adding where the count is the list's length or 1,024" "gives 14", as does
/// what `check_held` turns away with it; "a bad order, new or held, 15".
fn check_add(
    orders: &[Order],
    count: usize,
    order: &Order,
    volumes: &[u64],
) -> Result<(), Refusal> {
    if count == orders.len() || count == MAX_ORDERS {
        return Err(Refusal::Lists);
    }
    check_held(orders, count, volumes)?;
    if !order.is_sound() {
        return Err(Refusal::ListedOrder);
    }
    Ok(())
}

/// "16, last, if the place is at or beyond the count". The order to be taken out
/// is a held one and is checked with the others.
fn check_take(
    orders: &[Order],
    count: usize,
    place: usize,
    volumes: &[u64],
) -> Result<(), Refusal> {
    check_held(orders, count, volumes)?;
    if place >= count {
        return Err(Refusal::ListedPlace);
    }
    Ok(())
}

/// "either call with a count above one of these", the list's length and 1,024,
/// "or a short scratch list gives 14, and a bad order" among the held ones 15.
fn check_held(orders: &[Order], count: usize, volumes: &[u64]) -> Result<(), Refusal> {
    let held = orders.get(..count).ok_or(Refusal::Lists)?;
    auction::check(held, &[volumes])
}

/// "places past the count are zero afterwards", to the end of the lent list
/// however long it is; "answer and scratch are request 6's, worked out afresh from
/// the list", of which `check_add` or `check_take` let every order pass.
fn work_out(orders: &mut [Order], count: usize, reference: u32, volumes: &mut [u64]) -> Answer {
    let (held, past) = orders.split_at_mut(count);
    past.fill(ZERO);
    auction::choose_volumes(held, reference, volumes)
}
