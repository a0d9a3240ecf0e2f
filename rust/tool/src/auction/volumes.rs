//! The orders of a book, each with the volume at its place of the one scratch list.

use std::io::{self, Write};
use std::path::Path;

use events::Book;
use guvontsira::AuctionVolumes;

use super::{given, last_line, title};
use crate::failure::Failure;
use crate::table::{self, Column};

pub fn write(out: &mut impl Write, file: &Path, book: &Book) -> Result<(), Failure> {
    let mut auction = AuctionVolumes::new();
    let given = given(file, book, |orders| auction.price(orders, book.reference))?;
    title(out, book)?;
    write_orders(out, book, auction.volumes())?;
    Ok(last_line(out, book, given)?)
}

fn write_orders(out: &mut impl Write, book: &Book, volumes: &[u64]) -> io::Result<()> {
    if volumes.is_empty() {
        return Ok(());
    }
    let columns = [Column::Left("order"), Column::Right("volume at its price")];
    let places = book.orders.iter().zip(volumes);
    let rows: Vec<[String; 2]> = places
        .map(|(order, volume)| [order.to_string(), volume.to_string()])
        .collect();
    table::write(out, columns, &rows)?;
    writeln!(out)
}
