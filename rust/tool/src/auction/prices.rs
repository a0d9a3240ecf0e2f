//! The table of prices that source documents 002 and 003 print.

use std::collections::BTreeMap;
use std::io::{self, Write};
use std::path::Path;

use events::{Book, Price};
use guvontsira::Auction;

use super::{Given, given, last_line, title};
use crate::failure::Failure;
use crate::table::{self, Column};

/// The buyers' and the sellers' sum at each limit's price, as the library left them.
type Sums = BTreeMap<u32, (u64, u64)>;

pub fn write(out: &mut impl Write, file: &Path, book: &Book) -> Result<(), Failure> {
    let mut auction = Auction::new();
    let given = given(file, book, |orders| auction.price(orders, book.reference))?;
    title(out, book)?;
    write_table(out, &sums(book, &auction), given)?;
    Ok(last_line(out, book, given)?)
}

fn sums(book: &Book, auction: &Auction) -> Sums {
    let sums = auction.buyers().iter().zip(auction.sellers());
    let places = book.orders.iter().zip(sums);
    places
        .filter_map(|(order, (&buyers, &sellers))| Some((order.price?, (buyers, sellers))))
        .collect()
}

fn write_table(out: &mut impl Write, sums: &Sums, given: Given) -> io::Result<()> {
    if sums.is_empty() {
        return Ok(());
    }
    let columns = [
        Column::Right("price"),
        Column::Right("buyers"),
        Column::Right("sellers"),
        Column::Right("volume"),
        Column::Left(""),
    ];
    let projected = given.map(|(price, _)| price);
    let rows: Vec<[String; 5]> = sums
        .iter()
        .map(|(&price, &(buyers, sellers))| {
            let mark = if projected == Some(price) {
                "projected"
            } else {
                ""
            };
            [
                Price(price).to_string(),
                buyers.to_string(),
                sellers.to_string(),
                buyers.min(sellers).to_string(),
                mark.into(),
            ]
        })
        .collect();
    table::write(out, columns, &rows)?;
    writeln!(out)
}
