//! Rules S and V: every session, type, lot and best price, and volumes and
//! prices on both sides of the bounds.

use second::encode;
use second::event::Order;

use crate::layout::{SESSION, fresh, security_start};
use crate::program::Program;

const VOLUMES: [u32; 24] = [
    0,
    1,
    49,
    50,
    51,
    99,
    100,
    101,
    150,
    200,
    4_999,
    5_000,
    5_001,
    5_100,
    10_000_000,
    10_000_050,
    10_000_100,
    15_037_593,
    15_037_594,
    19_999_900,
    20_000_000,
    20_000_001,
    20_000_100,
    u32::MAX,
];

/// 33.25 is here because 15,037,594 shares at it pass 500 million baht by the
/// least that any price and volume can: half a baht.
const PRICES: [u32; 8] = [1, 24_90, 25_00, 33_25, 49_75, 50_00, 50_25, 10_000_000];

pub fn run(program: &mut Program) {
    let orders = orders();
    let quotes = [[0, 0], [49_75, 0], [0, 50_25], [49_75, 50_25]];
    for session in 0..=4 {
        for lot in [1, 50, 100] {
            for board in [0, 1] {
                for [bid, offer] in quotes {
                    let mut start = fresh(1, 1);
                    start[SESSION] = session;
                    let record = &mut start[security_start(0)..];
                    record[0] = lot;
                    record[7 + 4 * board] = bid;
                    record[8 + 4 * board] = offer;
                    program.each(
                        format_args!("session {session}, lot {lot}, board {board} {bid} {offer}"),
                        &start,
                        &orders,
                    );
                }
            }
        }
    }
}

fn orders() -> Vec<Vec<u8>> {
    let mut orders = Vec::new();
    for order_type in 0..=3 {
        let prices = if order_type == 0 { &PRICES[..] } else { &[0] };
        for &price in prices {
            for volume in VOLUMES {
                for (board, side) in [(0, 0), (0, 1), (1, 0), (1, 1)] {
                    for channel in 0..=2 {
                        orders.push(encode::order(&Order {
                            customer: 0,
                            number: 1,
                            security: 0,
                            board,
                            side,
                            order_type,
                            channel,
                            price,
                            volume,
                        }));
                    }
                }
            }
        }
    }
    orders
}
