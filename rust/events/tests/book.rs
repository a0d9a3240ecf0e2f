//! An auction's book: what its lines are, and what is said to those that cannot be
//! read, word for word.

use events::{Book, BookOrder, book};

fn order(line: usize, codes: [u8; 2], price: Option<u32>, volume: u32) -> BookOrder {
    let [side, order_type] = codes;
    BookOrder {
        line,
        side,
        order_type,
        price,
        volume,
    }
}

#[test]
fn lines() {
    let text = "\
# a book

buy ato x 1000      # at the opening
sell\tatc  x 4294967295
reference 102.25
buy limit 102.10 x 0
\tsell limit 42949672.95 x 1\r
";
    let orders = vec![
        order(3, [0, 1], None, 1_000),
        order(4, [1, 2], None, u32::MAX),
        order(6, [0, 0], Some(102_10), 0),
        order(7, [1, 0], Some(u32::MAX), 1),
    ];
    let reference = 102_25;
    assert_eq!(book(text), Ok(Book { reference, orders }));
}

#[test]
fn the_line_of_an_order() {
    for line in [
        "buy ato x 1000",
        "sell atc x 4294967295",
        "buy limit 102.10 x 0",
        "sell limit 42949672.95 x 1",
        "buy limit 0.01 x 1",
    ] {
        let orders = book(line).unwrap().orders;
        assert_eq!(orders[0].to_string(), line);
    }
}

#[test]
fn the_reference() {
    let of = |text: &str| book(text).unwrap().reference;
    assert_eq!(of(""), 0);
    assert_eq!(of("buy ato x 1\n"), 0);
    assert_eq!(of("reference -"), 0);
    assert_eq!(of("reference 0.00"), 0);
    assert_eq!(of("buy ato x 1\nreference 65.60\nbuy ato x 1"), 65_60);
    assert_eq!(of("reference 42949672.95"), u32::MAX);
}

/// A line, and what is said of it.
#[rustfmt::skip]
const BAD_LINES: &[(&str, &str)] = &[
    ("order 0 no 1", r#""order": expected buy, sell or reference"#),
    ("Buy ato x 1", r#""Buy": expected buy, sell or reference"#),
    ("side 2 ato x 1", r#""side": expected buy, sell or reference"#),
    ("buy", "the line ends: expected limit, ato or atc"),
    ("buy 102.00 x 1000", r#""102.00": expected limit, ato or atc"#),
    ("buy ATO x 1000", r#""ATO": expected limit, ato or atc"#),
    ("buy mp x 1000", r#""mp": expected limit, ato or atc"#),
    ("buy type 1 x 1000", r#""type": expected limit, ato or atc"#),
    ("sell limit", "the line ends: expected a price in baht, as 50.25"),
    ("sell limit x 100", r#""x": expected a price in baht, as 50.25"#),
    ("sell limit - x 100", r#""-": expected a price in baht, as 50.25"#),
    ("sell limit 0.00 x 100", r#""0.00": expected a price in baht, as 50.25"#),
    ("sell limit 102 x 100", r#""102": expected a price in baht, as 50.25"#),
    ("sell limit 102.125 x 100", r#""102.125": expected a price in baht, as 50.25"#),
    ("sell limit 42949672.96 x 100", r#""42949672.96": expected a price in baht, as 50.25"#),
    ("sell limit 102.00 100", r#""100": expected x"#),
    ("sell ato 102.00 x 100", r#""102.00": expected x"#),
    ("sell ato", "the line ends: expected x"),
    ("sell ato x", "the line ends: expected a volume, 0 to 4294967295"),
    ("sell ato x -5", r#""-5": expected a volume, 0 to 4294967295"#),
    ("sell ato x 1,000", r#""1,000": expected a volume, 0 to 4294967295"#),
    ("sell ato x 4294967296", r#""4294967296": expected a volume, 0 to 4294967295"#),
    ("sell ato x 100 online", r#""online": expected the end of the line"#),
    ("reference", "the line ends: expected a price in baht, as 50.25"),
    ("reference 102", r#""102": expected a price in baht, as 50.25"#),
    ("reference 102.00 103.00", r#""103.00": expected the end of the line"#),
];

#[test]
fn bad_lines() {
    for (line, reason) in BAD_LINES {
        let said = book(&format!("buy ato x 1\n\n{line}\nbuyy\n")).unwrap_err();
        assert_eq!(said.to_string(), format!("line 3: {reason}"));
    }
    let twice = book("reference -\nreference 1.00").unwrap_err();
    assert_eq!(twice.to_string(), r#"line 2: "reference" stands twice"#);
}
