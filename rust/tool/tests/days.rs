//! Days of every shape: picked lines, text and bytes, long ones, broken ones.

mod common;

use std::io::Write;
use std::process::{Command, Stdio};

use common::{out, run, sample, text};

const DAY: &str = "\
session open
order 0 no 1 security 0 main buy limit 50.00 x 100 online
order 0 no 2 security 0 main sell limit 50.00 x 100 online
cancel 0 no 3
";

fn day(options: &[&str], input: &[u8]) -> String {
    out(&[&["day", "-"], options].concat(), input)
}

#[test]
fn picked_lines() {
    let reject = "order 0 no 2 security 0 main sell limit 50.00 x 100 online  \
                  reject W    would trade with the customer's own order\n";
    let summary = "4 events\n1 ok\n1 accept\n1 reject W\n1 refused 10\n";
    assert_eq!(
        day(&["--only", "reject"], DAY.as_bytes()),
        format!("{reject}\n{summary}")
    );
    assert_eq!(day(&["--only", "warn"], DAY.as_bytes()), summary);
    assert_eq!(day(&["--only=warn"], DAY.as_bytes()), summary);
    let table = [
        ("ok", "ok\n"),
        ("accept", "accept\n"),
        ("reject,refused", "reject W\nrefused 10\n"),
        ("refused,ok,warn", "ok\nrefused 10\n"),
        ("warn", ""),
    ];
    for (only, answers) in table {
        let quiet = day(&["--quiet", "--only", only], DAY.as_bytes());
        assert_eq!(quiet, answers, "{only}");
    }
    let all = day(&["--quiet"], DAY.as_bytes());
    assert_eq!(all, "ok\naccept\nreject W\nrefused 10\n");
}

#[test]
fn text_and_bytes_alike() {
    for day_text in [DAY, &sample("day.txt"), "\n\n\tsession open\r\n"] {
        let bytes = run(&["encode"], day_text.as_bytes()).stdout;
        assert!(!bytes.is_empty());
        for options in [&[][..], &["--quiet"], &["--only", "reject,warn,refused"]] {
            assert_eq!(day(options, day_text.as_bytes()), day(options, &bytes));
        }
    }
    assert_eq!(day(&[], b""), "0 events\n");
    assert_eq!(day(&["--quiet"], b""), "");
}

#[test]
fn more_bytes_than_the_day_program_reads() {
    let once = run(&["encode", "day.txt"], b"").stdout;
    let times = 65_536 / once.len() + 2;
    let long = once.repeat(times);
    assert!(long.len() > 65_536);
    let listing = day(&[], &long);
    let events = 61 * times;
    assert!(listing.contains(&format!("\n\n{events} events\n")));
    let answers = day(&["--quiet"], &long);
    assert_eq!(answers.lines().count(), events);
    let decoded = run(&["decode", "-"], &long).stdout;
    assert!(day(&[], &decoded) == listing);
}

#[test]
fn counts() {
    let events = "cancel 8 no 1\nsetup 16 lot 100\n";
    let quiet = ["--quiet"].as_slice();
    assert_eq!(day(quiet, events.as_bytes()), "refused 4\nrefused 4\n");
    let more = [quiet, &["--customers", "9", "--securities", "17"]].concat();
    assert_eq!(day(&more, events.as_bytes()), "refused 10\nok\n");
    let joined = [quiet, &["--customers=9", "--securities=17"]].concat();
    assert_eq!(day(&joined, events.as_bytes()), "refused 10\nok\n");
    let most = [quiet, &["--securities", "1024", "--customers", "256"]].concat();
    assert_eq!(day(&most, events.as_bytes()), "refused 10\nok\n");
}

/// In bytes nothing follows what cannot be read; in a text the next line does.
#[test]
fn broken_events() {
    assert_eq!(
        day(&[], &[2, 2, 2]),
        "session open  ok          carried out\n\
         bytes 02      refused 2   not as many bytes as its kind takes\n\
         \n2 events\n1 ok\n1 refused 2\n"
    );
    assert_eq!(
        day(&[], &[2, 2, 31, 2, 2]),
        "session open    ok          carried out\n\
         bytes 1f 02 02  refused 3   unknown kind of event\n\
         \n2 events\n1 ok\n1 refused 3\n"
    );
    assert_eq!(
        day(&["--quiet"], b"bytes 1f 02 02\nbytes\nsession open\n"),
        "refused 3\nrefused 2\nok\n"
    );
}

/// Kind 9 is known, whole or cut, though it is a tab; the first unknown one, 10,
/// is a line feed, and ends a day of bytes all the same.
#[test]
fn the_last_kind_and_the_first_unknown() {
    let figures = [9, 0, 0, 0, 0, 0, 0, 232, 3, 0, 0, 2, 0, 3, 0];
    let line = "figures 0 old 2 new 3 dividend - subscription 10.00";
    assert_eq!(
        day(&[], &figures),
        format!(
            "{line}  refused 13  old shares 0, or dividend not below the prior close\n\
             \n1 event\n1 refused 13\n"
        )
    );
    assert_eq!(day(&["--quiet"], &figures[..14]), "refused 2\n");
    let unknown = [&figures[..], &[10, 1], &figures].concat();
    assert_eq!(day(&["--quiet"], &unknown), "refused 13\nrefused 3\n");
    assert_eq!(day(&["--quiet"], &unknown[15..]), "refused 3\n");
    let decoded = run(&["decode"], &unknown);
    assert_eq!(text(&decoded.stdout), format!("{line}\n"));
    assert_eq!(
        text(&decoded.stderr),
        "standard input: byte 15: kind 10 is unknown\n"
    );
}

/// It does not move the answers of others far to the right either.
#[test]
fn a_long_tail_is_cut() {
    let listing = day(&[], &[&[2, 2], &[0; 5_000][..]].concat());
    let lines: Vec<&str> = listing.lines().collect();
    assert_eq!(lines[0].find("ok"), Some(80 + 2));
    assert!(lines[1].starts_with("bytes 00 00 00 "));
    assert!(lines[1].ends_with(" ..  refused 3   unknown kind of event"));
    assert!(lines[1].len() < 200);
}

/// As when `head` has its ten lines.
#[test]
fn a_reader_that_has_enough() {
    let mut tool = Command::new(env!("CARGO_BIN_EXE_guvontsira"))
        .args(["day", "-"])
        .stdin(Stdio::piped())
        .stdout(Stdio::piped())
        .stderr(Stdio::piped())
        .spawn()
        .unwrap();
    drop(tool.stdout.take());
    let mut stdin = tool.stdin.take().unwrap();
    stdin.write_all(DAY.repeat(1_000).as_bytes()).unwrap();
    drop(stdin);
    let output = tool.wait_with_output().unwrap();
    assert_eq!(text(&output.stderr), "");
    assert_eq!(output.status.code(), Some(0));
}
