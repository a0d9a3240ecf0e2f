//! A security's record as a table.

use std::io::{self, Write};

use events::words::{ABSENT, BOARDS};
use events::{Code, Price};
use guvontsira::{Board, Figures, Range, Security};

use crate::ladder::two_positions;
use crate::table::{self, Column};

pub fn write(out: &mut impl Write, security: &Security, range: Option<Range>) -> io::Result<()> {
    let free = match security.free {
        true => "yes, no ceiling and floor",
        false => "no",
    };
    let first_day = if security.first_day { "yes" } else { "no" };
    writeln!(out, "lot          {}", security.lot)?;
    writeln!(out, "free         {free}")?;
    writeln!(out, "first day    {first_day}")?;
    writeln!(out, "prior close  {}", prior_close(security.prior_close))?;
    writeln!(out, "IPO price    {}", Price(security.ipo))?;
    writeln!(out, "figures      {}", figures(security.figures))?;
    writeln!(out, "range        {}", shown(range))?;
    writeln!(out)?;
    boards(out, security)
}

fn boards(out: &mut impl Write, security: &Security) -> io::Result<()> {
    let columns = [
        Column::Left("board"),
        Column::Right("projected"),
        Column::Right("last"),
        Column::Right("bid"),
        Column::Right("offer"),
    ];
    let rows: Vec<[String; 5]> = Board::ALL
        .iter()
        .map(|&board| {
            let prices = security.prices(board);
            let price = |satang| Price(satang).to_string();
            [
                Code(&BOARDS, board.code()).to_string(),
                price(prices.projected),
                price(prices.last),
                price(prices.bid),
                price(prices.offer),
            ]
        })
        .collect();
    table::write(out, columns, &rows)
}

/// In the order of the text form.
fn figures(figures: Option<Figures>) -> String {
    let Some(figures) = figures else {
        return ABSENT.into();
    };
    format!(
        "old {}, new {}, dividend {}, subscription {}",
        figures.old_shares,
        figures.new_shares,
        Price(figures.dividend),
        Price(figures.subscription),
    )
}

fn shown(range: Option<Range>) -> String {
    let Some(Range { floor, ceiling }) = range else {
        return ABSENT.into();
    };
    let empty = match floor > ceiling {
        true => ", no limit is within",
        false => "",
    };
    format!("floor {}, ceiling {}{empty}", Price(floor), Price(ceiling))
}

/// Warn 10 counts from both positions of a prior close between two steps.
fn prior_close(satang: u32) -> String {
    let price = Price(satang);
    match guvontsira::nearest(satang).filter(|nearest| !nearest.legal) {
        Some(between) => format!("{price}, {}", two_positions(between)),
        None => price.to_string(),
    }
}
