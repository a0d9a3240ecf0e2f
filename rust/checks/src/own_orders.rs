//! Rule W: every pair of an own row and a new order, in every session, with
//! prices on either board. The order's price, the projected price, the bid and
//! the offer are each below, at and above the price of a limit row, and the last
//! three absent as well, every choice of one with every choice of the others.

use second::encode;
use second::event::Order;

use crate::layout::{SESSION, fresh, row_start, security_start};
use crate::program::Program;

const SECURITIES: u32 = 2;
const ROW_PRICE: u32 = 50_00;
const AROUND: [u32; 3] = [49_75, ROW_PRICE, 50_25];
const ABSENT_OR_AROUND: [u32; 4] = [0, AROUND[0], AROUND[1], AROUND[2]];
const ONLINE: u8 = 1;

/// The projected price, the bid and the offer of one board.
#[derive(Clone, Copy, Debug)]
struct Quotes {
    board: usize,
    projected: u32,
    bid: u32,
    offer: u32,
}

pub fn run(program: &mut Program) {
    let orders = orders();
    let rows = rows();
    for session in 0..=4 {
        for quotes in quotes() {
            let mut start = fresh(1, SECURITIES);
            start[SESSION] = session;
            set_quotes(&mut start, quotes);
            for row in &rows {
                start[row_start(SECURITIES as usize, 0, 0)..][..9].copy_from_slice(row);
                program.each(
                    format_args!("session {session}, {quotes:?}, row {row:?}"),
                    &start,
                    &orders,
                );
            }
        }
    }
}

fn quotes() -> Vec<Quotes> {
    let mut all = Vec::new();
    for board in [0, 1] {
        for projected in ABSENT_OR_AROUND {
            for bid in ABSENT_OR_AROUND {
                for offer in ABSENT_OR_AROUND {
                    all.push(Quotes {
                        board,
                        projected,
                        bid,
                        offer,
                    });
                }
            }
        }
    }
    all
}

/// Of security 0; its other board has no prices, so that reading the wrong one
/// is seen. Sound words, also where no history leaves such prices in such a
/// session.
fn set_quotes(words: &mut [u32], quotes: Quotes) {
    let record = &mut words[security_start(0) + 4 * quotes.board..];
    record[5] = quotes.projected;
    record[7] = quotes.bid;
    record[8] = quotes.offer;
}

fn rows() -> Vec<[u32; 9]> {
    let mut rows = Vec::new();
    for side in [0, 1] {
        for board in [0, 1] {
            let row =
                |mark, order_type, price| [mark, 7, 0, board, side, order_type, price, 100, 0];
            rows.extend([
                row(1, 0, ROW_PRICE),
                row(2, 0, ROW_PRICE),
                row(1, 1, 0),
                row(1, 2, 0),
                row(1, 3, 0),
            ]);
        }
    }
    rows
}

fn orders() -> Vec<Vec<u8>> {
    let mut orders = Vec::new();
    for order_type in 0..=3 {
        let prices = if order_type == 0 { &AROUND[..] } else { &[0] };
        for &price in prices {
            for (board, side) in [(0, 0), (0, 1), (1, 0), (1, 1)] {
                // Rows are of security 0; of the other one the rule looks at
                // none, and only online orders could show that.
                for (security, channel) in [(0, 0), (0, ONLINE), (0, 2), (1, ONLINE)] {
                    orders.push(encode::order(&Order {
                        customer: 0,
                        number: 1,
                        security,
                        board,
                        side,
                        order_type,
                        channel,
                        price,
                        volume: 100,
                    }));
                }
            }
        }
    }
    orders
}
