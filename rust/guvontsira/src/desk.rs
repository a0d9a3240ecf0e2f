//! One customer's counters and rows, read out of a state's words.

use crate::codes::{Board, Mark, OrderType, Side};
use crate::layout::ROW_WORDS;
use crate::time::Time;

/// A marked row of a desk.
#[derive(Clone, Copy, Debug, PartialEq, Eq)]
pub struct Row {
    pub mark: Mark,
    pub number: u32,
    pub security: u32,
    pub board: Board,
    pub side: Side,
    pub order_type: OrderType,
    /// In satang; 0 unless a limit.
    pub price: u32,
    pub volume: u32,
    /// Midnight while the row is open.
    pub cancel_time: Time,
}

/// One customer's counters, and the marked rows in order of acceptance.
#[derive(Clone, Debug, PartialEq, Eq)]
pub struct Desk {
    pub accepted: u32,
    pub warned: u32,
    pub rejected: u32,
    pub rows: Vec<Row>,
}

impl Desk {
    /// `None` if a marked row has a code outside its list.
    pub(crate) fn read(words: &[u32]) -> Option<Desk> {
        let &[accepted, warned, rejected, ref rows @ ..] = words else {
            return None;
        };
        let marked = rows.chunks_exact(ROW_WORDS).filter(|row| row[0] != 0);
        Some(Desk {
            accepted,
            warned,
            rejected,
            rows: marked.map(Row::read).collect::<Option<_>>()?,
        })
    }
}

impl Row {
    fn read(words: &[u32]) -> Option<Row> {
        let &[
            mark,
            number,
            security,
            board,
            side,
            order_type,
            price,
            volume,
            cancel_time,
        ] = words
        else {
            return None;
        };
        Some(Row {
            mark: Mark::from_code(mark)?,
            number,
            security,
            board: Board::from_code(board)?,
            side: Side::from_code(side)?,
            order_type: OrderType::from_code(order_type)?,
            price,
            volume,
            cancel_time: Time {
                milliseconds: cancel_time,
            },
        })
    }
}
