//! What is said to a command that is not as the help says, and the help.

mod common;

use common::{error, out};

#[test]
fn usage() {
    let commands = "expected day, desk, security, ladder, auction, encode or decode";
    let table: &[(&[&str], &str)] = &[
        (&[], &format!("the command ends: {commands}")),
        (&["dya"], &format!("\"dya\": {commands}")),
        (&["-q"], &format!("\"-q\": {commands}")),
        (&["day"], "the command ends: expected a file"),
        (&["day", "--quiet"], "the command ends: expected a file"),
        (
            &["day", "day.txt", "more"],
            r#""more": expected the end of the command"#,
        ),
        (
            &["day", "day.txt", "--quite"],
            r#""--quite": no such option here, or given twice"#,
        ),
        (
            &["day", "--quiet", "day.txt", "--quiet"],
            r#""--quiet": no such option here, or given twice"#,
        ),
        (
            &["desk", "day.txt", "1", "--quiet"],
            r#""--quiet": no such option here, or given twice"#,
        ),
        (
            &["day", "day.txt", "--only", "rejct,warn"],
            r#""rejct": expected ok, accept, warn, reject or refused"#,
        ),
        (
            &["day", "day.txt", "--only"],
            "the command ends after --only: expected ok, accept, warn, reject or refused",
        ),
        (
            &["day", "day.txt", "--customers"],
            "the command ends after --customers: expected a number, 1 to 256",
        ),
        (
            &["day", "day.txt", "--customers", "0"],
            r#""0" after --customers: expected a number, 1 to 256"#,
        ),
        (
            &["day", "day.txt", "--customers="],
            r#""" after --customers: expected a number, 1 to 256"#,
        ),
        (
            &["day", "day.txt", "--customers=8", "--customers", "9"],
            r#""--customers": no such option here, or given twice"#,
        ),
        (
            &["day", "day.txt", "--quiet=yes"],
            r#""--quiet=yes": no such option here, or given twice"#,
        ),
        (
            &["desk", "day.txt", "0", "--customers", "257"],
            r#""257" after --customers: expected a number, 1 to 256"#,
        ),
        (
            &["day", "day.txt", "--securities", "1025"],
            r#""1025" after --securities: expected a number, 1 to 1024"#,
        ),
        (
            &["desk", "day.txt"],
            "the command ends: expected a customer, 0 to 7",
        ),
        (
            &["desk", "day.txt", "8"],
            r#""8": expected a customer, 0 to 7"#,
        ),
        (
            &["security", "day.txt", "first"],
            r#""first": expected a security, 0 to 15"#,
        ),
        (
            &["ladder"],
            "the command ends: expected a price in baht with two decimals, 0.01 to 100000.00",
        ),
        (
            &["auction", "a", "b"],
            r#""b": expected the end of the command"#,
        ),
        (
            &["auction", "--reference", "102.00"],
            r#""--reference": no such option here, or given twice"#,
        ),
        (
            &["auction", "--volumes", "book.txt", "--volumes"],
            r#""--volumes": no such option here, or given twice"#,
        ),
        (
            &["auction", "--volumes=yes"],
            r#""--volumes=yes": no such option here, or given twice"#,
        ),
        (
            &["auction", "--volumes", "a", "b"],
            r#""b": expected the end of the command"#,
        ),
        (
            &["auction", "--follow", "a", "b"],
            r#""b": expected the end of the command"#,
        ),
        (
            &["auction", "--follow", "--volumes"],
            r#""--volumes": no such option here, or given twice"#,
        ),
        (
            &["auction", "--follow", "-", "--follow"],
            r#""--follow": no such option here, or given twice"#,
        ),
        (
            &["auction", "--follow=changes.txt"],
            r#""--follow=changes.txt": no such option here, or given twice"#,
        ),
        (
            &["day", "day.txt", "--follow"],
            r#""--follow": no such option here, or given twice"#,
        ),
        (
            &["day", "day.txt", "--volumes"],
            r#""--volumes": no such option here, or given twice"#,
        ),
        (
            &["encode", "a", "b"],
            r#""b": expected the end of the command"#,
        ),
        (
            &["decode", "--quiet"],
            r#""--quiet": no such option here, or given twice"#,
        ),
    ];
    for (arguments, reason) in table {
        let said = error(arguments, b"", 2);
        assert_eq!(
            said,
            format!("guvontsira: {reason}\ntry guvontsira --help\n")
        );
    }
}

#[test]
fn no_price_of_the_ladder() {
    let words = [
        "0",
        "0.00",
        "100000.01",
        "100002.00",
        "42949672.96",
        "50",
        "50.5",
        "50.125",
        "-",
        "ato",
    ];
    for word in words {
        let reason = "expected a price in baht with two decimals, 0.01 to 100000.00";
        assert_eq!(
            error(&["ladder", word], b"", 2),
            format!("guvontsira: \"{word}\": {reason}\ntry guvontsira --help\n")
        );
    }
}

#[test]
fn help_and_version() {
    let help = out(&["--help"], b"");
    for word in [
        "day FILE",
        "desk FILE",
        "security FILE",
        "ladder PRICE",
        "auction [BOOK] [--volumes]",
        "auction --follow [CHANGES]",
        "encode",
        "decode",
    ] {
        assert!(help.contains(&format!("guvontsira {word}")), "{word}");
    }
    for arguments in [&["day", "--help"][..], &["--help", "nothing"], &["-h"]] {
        assert_eq!(out(arguments, b""), help);
    }
    assert!(help.lines().all(|line| line.len() <= 82));
    let version = out(&["--version"], b"");
    assert_eq!(version, format!("guvontsira {}\n", guvontsira::RELEASE));
    assert_eq!(out(&["-V"], b""), version);
}
