//! What is said to lines and bytes that cannot be read, word for word.

use events::{decode, encode, lines, text};

/// A line, and what is said of it.
#[rustfmt::skip]
const BAD_LINES: &[(&str, &str)] = &[
    // the first word
    ("open", r#""open": expected clock, session, setup, prices, order, cancel, match, rest, figures or bytes"#),
    ("Order 0", r#""Order": expected clock, session, setup, prices, order, cancel, match, rest, figures or bytes"#),
    // words of a list, and fields by their names
    ("order 0 no 1 security 0 main buyy limit 50.00 x 100 online", r#""buyy": expected buy or sell"#),
    ("order 0 no 1 security 0 main BUY", r#""BUY": expected buy or sell"#),
    ("order 0 no 1 security 0 side 1", r#""side": expected main or foreign"#),
    ("order 0 no 1 security 0 main buy stop", r#""stop": expected limit, ato, atc or mp"#),
    ("order 0 no 1 security 0 main buy ato x 5 web", r#""web": expected front, online or dma"#),
    ("prices 0 1 last 50.00", r#""1": expected main or foreign"#),
    ("session opened", r#""opened": expected closed, pre-open, open, break or pre-close"#),
    ("setup 0 lot 100 gratis", r#""gratis": expected free, first-day, close or ipo"#),
    ("setup 0 lot 100 free two", r#""two": expected free, first-day, close or ipo"#),
    ("prices 0 main sale 50.00", r#""sale": expected projected, last, bid or offer"#),
    ("prices 0 main last 1.00 last 1.00", r#""last" stands twice"#),
    ("setup 0 lot 1 free free", r#""free" stands twice"#),
    ("figures 0 old 2 new 3 price 10.00", r#""price": expected dividend or subscription"#),
    ("figures 0 old 2 new 3 dividend - dividend -", r#""dividend" stands twice"#),
    // one word alone
    ("order 0 number 1", r#""number": expected no"#),
    ("order 0 no 1 secutiry 0", r#""secutiry": expected security"#),
    ("setup 0 free lot 100", r#""free": expected lot"#),
    ("order 0 no 1 security 0 main buy ato 100 online", r#""100": expected x"#),
    ("order 0 no 1 security 0 main buy mp 50.00 100 online", r#""100": expected x"#),
    ("rest 0 5 at 50.25", r#""5": expected no"#),
    ("rest 0 no 5 50.25", r#""50.25": expected at"#),
    ("rest 0 no 5 x 100", r#""x": expected at"#),
    ("figures 0 2 new 3", r#""2": expected old"#),
    ("figures 0 new 3 old 2", r#""new": expected old"#),
    ("figures 0 old 2 3", r#""3": expected new"#),
    ("figures 0 old 2 dividend 0.50 new 3", r#""dividend": expected new"#),
    // where the line ends
    ("clock", "the line ends: expected a time, as 09:55:00.000"),
    ("session", "the line ends: expected closed, pre-open, open, break or pre-close"),
    ("setup", "the line ends: expected a security, 0 to 65535"),
    ("setup 0", "the line ends: expected lot"),
    ("setup 0 lot", "the line ends: expected a lot, 0 to 255"),
    ("setup 0 lot 100 close", "the line ends: expected a price in baht, as 50.25"),
    ("prices 0", "the line ends: expected main or foreign"),
    ("prices 0 board", "the line ends: expected a number, 0 to 255"),
    ("prices 0 main last", "the line ends: expected a price in baht, as 50.25"),
    ("cancel", "the line ends: expected a customer, 0 to 65535"),
    ("cancel 0", "the line ends: expected no"),
    ("cancel 0 no", "the line ends: expected an order number, 0 to 4294967295"),
    ("match 0 no 1", "the line ends: expected x"),
    ("match 0 no 1 x", "the line ends: expected a volume, 0 to 4294967295"),
    ("rest", "the line ends: expected a customer, 0 to 65535"),
    ("rest 0", "the line ends: expected no"),
    ("rest 0 no", "the line ends: expected an order number, 0 to 4294967295"),
    ("rest 0 no 5", "the line ends: expected at"),
    ("rest 0 no 5 at", "the line ends: expected a price in baht, as 50.25"),
    ("figures", "the line ends: expected a security, 0 to 65535"),
    ("figures 0", "the line ends: expected old"),
    ("figures 0 old", "the line ends: expected shares, 0 to 65535"),
    ("figures 0 old 2", "the line ends: expected new"),
    ("figures 0 old 2 new", "the line ends: expected shares, 0 to 65535"),
    ("figures 0 old 2 new 3 dividend", "the line ends: expected a price in baht, as 50.25"),
    ("order 0 no 1 security 0 main", "the line ends: expected buy or sell"),
    ("order 0 no 1 security 0 main buy", "the line ends: expected limit, ato, atc or mp"),
    ("order 0 no 1 security 0 main buy ato", "the line ends: expected x"),
    ("order 0 no 1 security 0 main buy ato x 5", "the line ends: expected front, online or dma"),
    // prices
    ("order 0 no 1 security 0 main buy limit x 100 online", r#""x": expected a price in baht, as 50.25"#),
    ("prices 0 main last 50", r#""50": expected a price in baht, as 50.25"#),
    ("prices 0 main last 50.5", r#""50.5": expected a price in baht, as 50.25"#),
    ("prices 0 main last 50.125", r#""50.125": expected a price in baht, as 50.25"#),
    ("prices 0 main last .50", r#"".50": expected a price in baht, as 50.25"#),
    ("prices 0 main last -1.00", r#""-1.00": expected a price in baht, as 50.25"#),
    ("prices 0 main last +1.00", r#""+1.00": expected a price in baht, as 50.25"#),
    ("prices 0 main last 42949672.96", r#""42949672.96": expected a price in baht, as 50.25"#),
    ("rest 0 no 5 at 50", r#""50": expected a price in baht, as 50.25"#),
    ("rest 0 no 5 at mp", r#""mp": expected a price in baht, as 50.25"#),
    ("rest 0 no 5 at 42949672.96", r#""42949672.96": expected a price in baht, as 50.25"#),
    ("figures 0 old 2 new 3 subscription 10", r#""10": expected a price in baht, as 50.25"#),
    // times
    ("clock 9:55:00", r#""9:55:00": expected a time, as 09:55:00.000"#),
    ("clock 09:55", r#""09:55": expected a time, as 09:55:00.000"#),
    ("clock 09:60:00", r#""09:60:00": expected a time, as 09:55:00.000"#),
    ("clock 09:00:60", r#""09:00:60": expected a time, as 09:55:00.000"#),
    ("clock 09:55:00.5", r#""09:55:00.5": expected a time, as 09:55:00.000"#),
    ("clock 1193:02:47.296", r#""1193:02:47.296": expected a time, as 09:55:00.000"#),
    // numbers
    ("cancel one no 1", r#""one": expected a customer, 0 to 65535"#),
    ("cancel -1 no 1", r#""-1": expected a customer, 0 to 65535"#),
    ("cancel 65536 no 1", r#""65536": expected a customer, 0 to 65535"#),
    ("cancel 0 no +1", r#""+1": expected an order number, 0 to 4294967295"#),
    ("cancel 0 no 4294967296", r#""4294967296": expected an order number, 0 to 4294967295"#),
    ("rest 65536 no 5 at 50.25", r#""65536": expected a customer, 0 to 65535"#),
    ("rest 0 no 4294967296 at 50.25", r#""4294967296": expected an order number, 0 to 4294967295"#),
    ("figures 65536 old 2 new 3", r#""65536": expected a security, 0 to 65535"#),
    ("figures 0 old 65536 new 3", r#""65536": expected shares, 0 to 65535"#),
    ("figures 0 old 2 new -3", r#""-3": expected shares, 0 to 65535"#),
    ("setup 0 lot 256", r#""256": expected a lot, 0 to 255"#),
    ("setup 0 lot 1 free 256", r#""256": expected a number, 0 to 255"#),
    ("session 256", r#""256": expected a number, 0 to 255"#),
    ("prices 0 board 256", r#""256": expected a number, 0 to 255"#),
    // past the end
    ("cancel 0 no 1 2", r#""2": expected the end of the line"#),
    ("session open now", r#""now": expected the end of the line"#),
    ("rest 0 no 5 at 50.25 x 100", r#""x": expected the end of the line"#),
    // bytes
    ("bytes 9", r#""9": expected a byte, as 0f"#),
    ("bytes 0g", r#""0g": expected a byte, as 0f"#),
    ("bytes +1", r#""+1": expected a byte, as 0f"#),
];

#[test]
fn bad_lines() {
    for (line, reason) in BAD_LINES {
        let error = encode(line).expect_err(line).to_string();
        assert_eq!(error, format!("line 1: {reason}"), "{line}");
    }
}

#[test]
fn comments_and_blank_lines_count() {
    let day = "# a day\n\nsession open\n  # buys\nclock 10:00:00\n\norder 0 no 1 security 0 mian\n";
    let error = encode(day).unwrap_err();
    assert_eq!(error.line, 7);
    assert_eq!(
        error.to_string(),
        r#"line 7: "mian": expected main or foreign"#
    );
}

#[test]
fn no_text() {
    let error = text(b"#\n# \xff\n").unwrap_err();
    assert_eq!(error.to_string(), "line 2: not UTF-8 text");
    assert_eq!(text("# ฿\n".as_bytes()), Ok("# ฿\n"));
}

#[test]
fn broken_events() {
    let table: [(&[u8], &str); 10] = [
        (&[0], "byte 0: kind 0 is unknown"),
        (&[2, 2, 10, 0], "byte 2: kind 10 is unknown"),
        (
            &[2, 2, 2],
            "byte 2: an event of kind 2 takes 2 bytes, and 1 are left",
        ),
        (
            &[1, 0, 0, 0],
            "byte 0: an event of kind 1 takes 5 bytes, and 4 are left",
        ),
        (
            &[5; 20],
            "byte 0: an event of kind 5 takes 21 bytes, and 20 are left",
        ),
        (
            &[6, 0, 0, 1, 0, 0, 0, 7, 0],
            "byte 7: an event of kind 7 takes 11 bytes, and 2 are left",
        ),
        (
            &[2, 2, 8, 0],
            "byte 2: an event of kind 8 takes 11 bytes, and 2 are left",
        ),
        (
            &[8; 10],
            "byte 0: an event of kind 8 takes 11 bytes, and 10 are left",
        ),
        (
            &[2, 2, 9, 0],
            "byte 2: an event of kind 9 takes 15 bytes, and 2 are left",
        ),
        (
            &[9; 14],
            "byte 0: an event of kind 9 takes 15 bytes, and 14 are left",
        ),
    ];
    for (bytes, message) in table {
        assert_eq!(decode(bytes).unwrap_err().to_string(), message);
        assert!(lines(bytes).last().unwrap().is_err());
    }
}
