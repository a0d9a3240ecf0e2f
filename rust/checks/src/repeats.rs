//! Rule P: an own row of every age and volume, and new orders that are like it
//! but for one thing.

use second::encode;
use second::event::Order;

use crate::layout::{CLOCK, SESSION, fresh, row_start, security_start};
use crate::program::Program;

const SECURITIES: u32 = 2;
const NOW: u32 = 50_000_000;
const AGES: [u32; 7] = [0, 1, 59_999, 60_000, 60_001, 120_000, NOW];

/// A price, the one below and the one above, and the least volume that is worth
/// 3 million baht.
const PRICES: [([u32; 3], u32); 4] = [
    ([49_75, 50_00, 50_25], 60_000),
    ([14, 15, 16], 20_000_000),
    ([32_75, 33_00, 33_25], 90_910),
    ([9_999_600, 9_999_800, 10_000_000], 31),
];

pub fn run(program: &mut Program) {
    for (prices, least) in PRICES {
        let orders = orders(prices, least);
        for session in 0..=4 {
            for mark in [1, 2] {
                for age in AGES {
                    for volume in row_volumes(least) {
                        let cancel_time = if mark == 1 { 0 } else { NOW - age };
                        let row = [mark, 7, 0, 0, 0, 0, prices[1], volume, cancel_time];
                        program.each(
                            format_args!("session {session}, row {row:?}"),
                            &start(session, &row),
                            &orders,
                        );
                    }
                }
            }
        }
    }
}

fn start(session: u32, row: &[u32; 9]) -> Vec<u32> {
    let mut start = fresh(1, SECURITIES);
    start[CLOCK] = NOW;
    start[SESSION] = session;
    for security in 0..SECURITIES as usize {
        start[security_start(security)] = 1;
    }
    start[row_start(SECURITIES as usize, 0, 0)..][..9].copy_from_slice(row);
    start
}

/// Twice the least volume, and what is next to it on both sides.
fn row_volumes(least: u32) -> impl Iterator<Item = u32> {
    [
        1,
        least,
        2 * least - 1,
        2 * least,
        2 * least + 1,
        20_000_000,
    ]
    .into_iter()
    .map(|volume| volume.min(20_000_000))
}

fn orders(prices: [u32; 3], least: u32) -> Vec<Vec<u8>> {
    let like = Order {
        customer: 0,
        number: 1,
        security: 0,
        board: 0,
        side: 0,
        order_type: 0,
        channel: 1,
        price: prices[1],
        volume: least,
    };
    let mut orders = Vec::new();
    for volume in [least / 2, least - 1, least, least + 1] {
        let like = Order { volume, ..like };
        for price in prices {
            orders.push(Order { price, ..like });
        }
        for channel in [0, 2] {
            orders.push(Order { channel, ..like });
        }
        for order_type in 1..=3 {
            let price = 0;
            orders.push(Order {
                order_type,
                price,
                ..like
            });
        }
        orders.push(Order { side: 1, ..like });
        orders.push(Order { board: 1, ..like });
        orders.push(Order {
            security: 1,
            ..like
        });
        // The number of the row itself.
        orders.push(Order { number: 7, ..like });
    }
    orders.iter().map(encode::order).collect()
}
