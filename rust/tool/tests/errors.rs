//! What is said to bad lines, files and bytes, and the exit status; encode and
//! decode.

mod common;

use common::{error, out, run, text};

/// File, line and reason; the lines before are not answered.
#[test]
fn bad_lines() {
    let day = b"session open\n\norder 0 no 1 security 0 main buyy limit 50.00 x 100 online\n";
    let said = "standard input:3: \"buyy\": expected buy or sell\n";
    let commands: [&[&str]; 5] = [
        &["day", "-"],
        &["desk", "-", "0"],
        &["security", "-", "0"],
        &["encode", "-"],
        &["encode"],
    ];
    for command in commands {
        assert_eq!(error(command, day, 1), said);
    }
    assert_eq!(
        error(&["day", "-"], b"#\n# \xff\n", 1),
        "standard input:2: not UTF-8 text\n"
    );
    // A listing is no day.
    let commands =
        "expected clock, session, setup, prices, order, cancel, match, rest, figures or bytes";
    assert_eq!(
        error(&["day", "./day.listing"], b"", 1),
        format!("./day.listing:1: \"screen\": {commands}\n")
    );
    assert_eq!(
        error(&["encode", "../samples/day.listing"], b"", 1),
        format!("../samples/day.listing:1: \"screen\": {commands}\n")
    );
}

#[test]
fn no_file() {
    for command in [
        &["day", "none"][..],
        &["desk", "none", "0"],
        &["decode", "none"],
    ] {
        let said = error(command, b"", 1);
        assert!(
            said.starts_with("none: ") && said.lines().count() == 1,
            "{said}"
        );
    }
}

#[test]
fn encode_and_decode() {
    let lines = "session open\ncancel 0 no 1\n";
    let bytes = [2, 2, 6, 0, 0, 1, 0, 0, 0];
    for file in [&[][..], &["-"]] {
        assert_eq!(
            run(&[&["encode"], file].concat(), lines.as_bytes()).stdout,
            bytes
        );
        assert_eq!(out(&[&["decode"], file].concat(), &bytes), lines);
        assert_eq!(out(&[&["encode"], file].concat(), b""), "");
        assert_eq!(out(&[&["decode"], file].concat(), b""), "");
    }
}

/// The events before a broken one show what led to it.
#[test]
fn decode_what_is_broken() {
    let output = run(&["decode"], &[2, 2, 0]);
    assert_eq!(output.status.code(), Some(1));
    assert_eq!(text(&output.stdout), "session open\n");
    assert_eq!(
        text(&output.stderr),
        "standard input: byte 2: kind 0 is unknown\n"
    );
}
