//! The changes of an auction's list: what their lines are, and what is said to those that
//! cannot be read, word for word.

use events::{BookOrder, Change, change};

fn read(text: &str) -> Option<Change> {
    change(text, 7).unwrap_or_else(|wrong| panic!("{text}: {wrong}"))
}

fn add(codes: [u8; 2], price: Option<u32>, volume: u32) -> Option<Change> {
    let [side, order_type] = codes;
    Some(Change::Add(BookOrder {
        line: 7,
        side,
        order_type,
        price,
        volume,
    }))
}

#[test]
fn lines() {
    assert_eq!(read(""), None);
    assert_eq!(read(" \t\r"), None);
    assert_eq!(read("# take 0"), None);
    assert_eq!(
        read("add buy ato x 1000 # at the opening"),
        add([0, 1], None, 1_000)
    );
    assert_eq!(
        read("add\tsell  atc x 4294967295\r"),
        add([1, 2], None, u32::MAX)
    );
    assert_eq!(
        read("add buy limit 102.10 x 0"),
        add([0, 0], Some(102_10), 0)
    );
    assert_eq!(
        read("\tadd sell limit 42949672.95 x 1"),
        add([1, 0], Some(u32::MAX), 1)
    );
    assert_eq!(read("take 0"), Some(Change::Take { place: 0 }));
    assert_eq!(read(" take  007#"), Some(Change::Take { place: 7 }));
    assert_eq!(
        read("take 4294967295"),
        Some(Change::Take {
            place: 4_294_967_295
        })
    );
    let reference = |price| Some(Change::Reference { price });
    assert_eq!(read("reference 102.50"), reference(102_50));
    assert_eq!(read("reference 42949672.95"), reference(u32::MAX));
    assert_eq!(read("reference 0.00"), reference(0));
    assert_eq!(read("reference -"), reference(0));
}

#[test]
fn the_line_of_a_change() {
    for line in [
        "add buy ato x 1000",
        "add sell atc x 4294967295",
        "add buy limit 102.10 x 0",
        "add sell limit 42949672.95 x 4294967295",
        "take 0",
        "take 4294967295",
        "reference 102.50",
        "reference -",
    ] {
        assert_eq!(read(line).unwrap().to_string(), line);
    }
}

/// A line, and what is said of it.
#[rustfmt::skip]
const BAD_LINES: &[(&str, &str)] = &[
    ("buy ato x 1", r#""buy": expected add, take or reference"#),
    ("Add buy ato x 1", r#""Add": expected add, take or reference"#),
    ("cancel 0 no 1", r#""cancel": expected add, take or reference"#),
    ("add", "the line ends: expected buy or sell"),
    ("add ato x 1", r#""ato": expected buy or sell"#),
    ("add reference 1.00", r#""reference": expected buy or sell"#),
    ("add side 2 ato x 1", r#""side": expected buy or sell"#),
    ("add buy", "the line ends: expected limit, ato or atc"),
    ("add buy mp x 1000", r#""mp": expected limit, ato or atc"#),
    ("add buy 102.00 x 1000", r#""102.00": expected limit, ato or atc"#),
    ("add sell limit - x 100", r#""-": expected a price in baht, as 50.25"#),
    ("add sell limit 0.00 x 100", r#""0.00": expected a price in baht, as 50.25"#),
    ("add sell limit 102 x 100", r#""102": expected a price in baht, as 50.25"#),
    ("add sell ato 102.00 x 100", r#""102.00": expected x"#),
    ("add sell ato x", "the line ends: expected a volume, 0 to 4294967295"),
    ("add sell ato x 4294967296", r#""4294967296": expected a volume, 0 to 4294967295"#),
    ("add sell ato x 100 online", r#""online": expected the end of the line"#),
    ("take", "the line ends: expected a place, 0 to 4294967295"),
    ("take -1", r#""-1": expected a place, 0 to 4294967295"#),
    ("take +1", r#""+1": expected a place, 0 to 4294967295"#),
    ("take last", r#""last": expected a place, 0 to 4294967295"#),
    ("take 4294967296", r#""4294967296": expected a place, 0 to 4294967295"#),
    ("take 0 1", r#""1": expected the end of the line"#),
    ("reference", "the line ends: expected a price in baht, as 50.25"),
    ("reference 102", r#""102": expected a price in baht, as 50.25"#),
    ("reference 102.00 103.00", r#""103.00": expected the end of the line"#),
];

#[test]
fn bad_lines() {
    for (line, reason) in BAD_LINES {
        let said = change(line, 12).unwrap_err();
        assert_eq!(said.to_string(), format!("line 12: {reason}"));
    }
}
