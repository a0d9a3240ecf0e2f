//! The price of an auction: the sample books, the two tables, and what is said to a
//! book that is not as it should be.

mod common;

use std::fs;

use common::{error, out, sample, samples};

/// The books of the source documents come out as stored; the prices are the request's.
#[test]
fn sample_books() {
    let files = fs::read_dir(samples().join("auctions")).unwrap();
    let names = files.map(|file| file.unwrap().file_name().into_string().unwrap());
    // A text of changes has its prices beside it.
    let is_book = |name: &String| !samples().join(format!("auctions/{name}.prices")).exists();
    let books: Vec<String> = names
        .filter_map(|name| name.strip_suffix(".txt").map(str::to_string))
        .filter(is_book)
        .collect();
    assert!(books.len() >= 3);
    for book in books {
        let file = format!("auctions/{book}.txt");
        let table = sample(&format!("auctions/{book}.table"));
        assert_eq!(out(&["auction", &file], b""), table, "{book}");
        let volumes = sample(&format!("auctions/{book}.volumes"));
        assert_eq!(out(&["auction", "--volumes", &file], b""), volumes);
        assert_eq!(volumes.lines().last(), table.lines().last(), "{book}");
    }
    for (document, last) in [
        ("002", "projected price 102.00, volume 3500"),
        ("003", "projected price 49.00, volume 900"),
    ] {
        let table = sample(&format!("auctions/document-{document}.table"));
        assert_eq!(table.lines().last(), Some(last));
    }
}

fn auction(book: &str) -> String {
    out(&["auction", "-"], book.as_bytes())
}

fn volumes(book: &str) -> String {
    out(&["auction", "--volumes", "-"], book.as_bytes())
}

/// What is said to the book, whatever is to be written of it.
fn refused(book: &[u8]) -> String {
    let said = error(&["auction"], book, 1);
    assert_eq!(error(&["auction", "-"], book, 1), said);
    assert_eq!(error(&["auction", "--volumes"], book, 1), said);
    said
}

/// A price with several orders has one line, and the lines ascend; an order has a line
/// of its own, in its place.
#[test]
fn tables() {
    let book = "\
# An ATO and an ATC are alike.
sell limit 100.00 x 300
buy atc x 50
buy limit 100.00 x 20000000

reference 9.95
sell limit 9.95 x 100  # far below
sell ato x 1
buy limit 100.00 x 20000000
";
    let table = "\
6 orders, reference 9.95

 price    buyers  sellers  volume
  9.95  40000050      101     101
100.00  40000050      401     401  projected

projected price 100.00, volume 401
";
    assert_eq!(auction(book), table);
    assert_eq!(out(&["auction"], book.as_bytes()), table);
    let table = "\
6 orders, reference 9.95

order                        volume at its price
sell limit 100.00 x 300                      401
buy atc x 50                                   0
buy limit 100.00 x 20000000                  401
sell limit 9.95 x 100                        101
sell ato x 1                                   0
buy limit 100.00 x 20000000                  401

projected price 100.00, volume 401
";
    assert_eq!(volumes(book), table);
    assert_eq!(out(&["auction", "--volumes"], book.as_bytes()), table);
    assert_eq!(out(&["auction", "-", "--volumes"], book.as_bytes()), table);
}

/// Without a reference, of two prices with equal volume and difference the lower is the nearer.
#[test]
fn reference() {
    let book = "buy limit 2.00 x 100\nsell limit 2.06 x 100\nbuy ato x 100\nsell ato x 100\n";
    let of = |reference: &str| {
        let table = auction(&format!("{book}{reference}"));
        table.lines().last().map(str::to_string).unwrap()
    };
    assert_eq!(of(""), "projected price 2.00, volume 100");
    assert_eq!(of("reference -"), "projected price 2.00, volume 100");
    assert_eq!(of("reference 2.02"), "projected price 2.00, volume 100");
    assert_eq!(of("reference 2.03"), "projected price 2.06, volume 100");
}

#[test]
fn no_price() {
    let last = "no projected price: no limit in the book\n";
    assert_eq!(auction(""), format!("0 orders, reference 0.00\n\n{last}"));
    assert_eq!(volumes(""), auction(""));
    let alone = "buy ato x 100\nreference 50.00\n";
    assert_eq!(
        auction(alone),
        format!("1 order, reference 50.00\n\n{last}")
    );
    assert_eq!(
        volumes(alone),
        format!(
            "\
1 order, reference 50.00

order          volume at its price
buy ato x 100                    0

{last}"
        )
    );
    let last = "no projected price: no limit's price has volume\n";
    let apart = "buy limit 1.00 x 100\nsell limit 1.01 x 5\n";
    assert_eq!(
        auction(apart),
        format!(
            "\
2 orders, reference 0.00

price  buyers  sellers  volume
 1.00     100        0       0
 1.01       0        5       0

{last}"
        )
    );
    assert_eq!(
        volumes(apart),
        format!(
            "\
2 orders, reference 0.00

order                 volume at its price
buy limit 1.00 x 100                    0
sell limit 1.01 x 5                     0

{last}"
        )
    );
}

/// File, line and reason; nothing on standard output.
#[test]
fn bad_books() {
    let volume = "is not 1 to 20000000";
    let lines = [
        ("bid 102.00", r#""bid": expected buy, sell or reference"#),
        (
            "buy limit",
            "the line ends: expected a price in baht, as 50.25",
        ),
        (
            "buy limit 102.125 x 1",
            r#""102.125": expected a price in baht, as 50.25"#,
        ),
        (
            "buy ato x",
            "the line ends: expected a volume, 0 to 4294967295",
        ),
        (
            "buy limit 102.10 x 100",
            "refused 15: 102.10 is not legal, lower position 904 (102.00), upper position 905 (102.50)",
        ),
        (
            "buy limit 100000.01 x 100",
            "refused 15: 100000.01 is above 100000.00",
        ),
        (
            "sell limit 42949672.95 x 0",
            "refused 15: 42949672.95 is above 100000.00",
        ),
        ("sell ato x 0", &format!("refused 15: volume 0 {volume}")),
        (
            "sell limit 1.00 x 20000001",
            &format!("refused 15: volume 20000001 {volume}"),
        ),
    ];
    for (line, reason) in lines {
        let book = format!("# a book\nbuy limit 102.00 x 1\n\n{line}\n");
        let said = format!("standard input:4: {reason}\n");
        assert_eq!(refused(book.as_bytes()), said);
    }
    // The first of two.
    let said = refused(b"buy ato x 0\nbuy ato x 20000001\n");
    assert_eq!(
        said,
        format!("standard input:1: refused 15: volume 0 {volume}\n")
    );
    assert_eq!(
        refused(b"buy ato x 1\nreference -\nreference -\n"),
        "standard input:3: \"reference\" stands twice\n"
    );
    assert_eq!(
        refused(b"#\n# \xff\n"),
        "standard input:2: not UTF-8 text\n"
    );
}

#[test]
fn bad_files() {
    for option in [&[][..], &["--volumes"]] {
        let said = error(&[&["auction", "none"], option].concat(), b"", 1);
        assert!(said.starts_with("none: ") && said.lines().count() == 1);
        // A day is no book.
        assert_eq!(
            error(&[&["auction", "paper.txt"], option].concat(), b"", 1),
            "paper.txt:2: \"session\": expected buy, sell or reference\n"
        );
    }
}

/// docs/TEXT.md: its book with what the tool writes of it, and what it says to refused
/// ones.
#[test]
fn as_printed() {
    let text = fs::read_to_string(samples().join("../docs/TEXT.md")).unwrap();
    let (_, text) = text.split_once("\n## The text of a book\n").unwrap();
    let blocks: Vec<&str> = text.split("```").collect();
    let [book, by_price, by_order] =
        [1, 3, 5].map(|place| blocks[place].strip_prefix("text\n").unwrap());
    assert_eq!(auction(book), by_price);
    assert_eq!(volumes(book), by_order);

    let (_, rows) = text
        .split_once("| said by the tool |\n|---|---|\n")
        .unwrap();
    let mut count = 0;
    for row in rows.lines().map_while(|row| row.strip_prefix("| `")) {
        let (line, said) = row
            .strip_suffix("` |")
            .unwrap()
            .split_once("` | `")
            .unwrap();
        assert_eq!(refused(line.as_bytes()), format!("{said}\n"));
        count += 1;
    }
    assert_eq!(count, 4);
}

/// The orders are counted, not the lines; too many are found before a bad one.
#[test]
fn too_many_orders() {
    let book = "# many\nreference 1.00\n".to_string() + &"buy ato x 1\n".repeat(1_023);
    let most = format!("{book}sell limit 1.00 x 1\n");
    assert!(auction(&most).ends_with("projected price 1.00, volume 1\n"));
    assert!(volumes(&most).ends_with("projected price 1.00, volume 1\n"));
    assert_eq!(volumes(&most).lines().count(), 1_024 + 5);
    for more in ["sell ato x 1\n", "sell ato x 0\nsell ato x 1\n"] {
        assert_eq!(
            refused((most.clone() + more).as_bytes()),
            "standard input:1027: refused 14: more than 1024 orders\n"
        );
    }
}
