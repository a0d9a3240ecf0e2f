//! A customer's counters and rows as a table.

use std::io::{self, Write};

use events::words::{BOARDS, SIDES, TYPES};
use events::{Code, Price};
use guvontsira::{Desk, Mark, Row};

use crate::table::{self, Column};

pub fn write(out: &mut impl Write, desk: &Desk) -> io::Result<()> {
    writeln!(out, "accepted  {}", desk.accepted)?;
    writeln!(out, "warned    {}", desk.warned)?;
    writeln!(out, "rejected  {}", desk.rejected)?;
    writeln!(out)?;
    if desk.rows.is_empty() {
        return writeln!(out, "no rows");
    }
    let columns = [
        Column::Right("no"),
        Column::Right("security"),
        Column::Left("board"),
        Column::Left("side"),
        Column::Left("type"),
        Column::Right("price"),
        Column::Right("volume"),
        Column::Left("mark"),
    ];
    let rows: Vec<[String; 8]> = desk.rows.iter().map(cells).collect();
    table::write(out, columns, &rows)
}

fn cells(row: &Row) -> [String; 8] {
    [
        row.number.to_string(),
        row.security.to_string(),
        Code(&BOARDS, row.board.code()).to_string(),
        Code(&SIDES, row.side.code()).to_string(),
        Code(&TYPES, row.order_type.code()).to_string(),
        Price(row.price).to_string(),
        row.volume.to_string(),
        match row.mark {
            Mark::Open => "open".into(),
            Mark::Cancelled => format!("cancelled at {}", row.cancel_time),
        },
    ]
}
