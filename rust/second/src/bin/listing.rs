//! The day program's listing by the second implementation: events on standard input, the listing on standard output.

use std::io::{Read, Write};

fn main() -> std::io::Result<()> {
    let mut input = Vec::new();
    std::io::stdin().read_to_end(&mut input)?;
    std::io::stdout().write_all(second::day::listing(&input).as_bytes())
}
