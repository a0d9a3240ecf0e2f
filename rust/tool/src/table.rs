//! Columns of text.

use std::io::{self, Write};

pub enum Column {
    Left(&'static str),
    /// For numbers and prices.
    Right(&'static str),
}

impl Column {
    fn name(&self) -> &'static str {
        match self {
            Column::Left(name) | Column::Right(name) => name,
        }
    }

    fn pad(&self, cell: &str, width: usize) -> String {
        match self {
            Column::Left(_) => format!("{cell:<width$}"),
            Column::Right(_) => format!("{cell:>width$}"),
        }
    }
}

/// The names of the columns and the rows below them, two spaces between columns.
pub fn write<const N: usize>(
    out: &mut impl Write,
    columns: [Column; N],
    rows: &[[String; N]],
) -> io::Result<()> {
    let names = columns.each_ref().map(|column| column.name().to_string());
    let lines = || std::iter::once(&names).chain(rows);
    let widths: [usize; N] =
        std::array::from_fn(|place| lines().map(|line| line[place].len()).max().unwrap_or(0));
    for line in lines() {
        let cells: [String; N] =
            std::array::from_fn(|place| columns[place].pad(&line[place], widths[place]));
        writeln!(out, "{}", cells.join("  ").trim_end())?;
    }
    Ok(())
}
