//! Orders that come and go: the sample, the columns, that a line is written before the
//! next one is read, and what is said to lines that are not as they should be.

mod common;

use std::fs;
use std::io::{BufRead, BufReader, Write};
use std::process::{Command, Stdio};
use std::sync::mpsc;
use std::thread;
use std::time::Duration;

use common::{error, out, run, sample, samples, text};

fn follow(changes: &str) -> String {
    out(&["auction", "--follow"], changes.as_bytes())
}

/// What is written in the last line: the count of orders held, and the answer.
fn last(changes: &str) -> (String, String) {
    let written = follow(changes);
    let [_, count, answer] = columns(written.lines().last().unwrap());
    (count, answer)
}

/// By the bytes at which they begin.
fn columns(line: &str) -> [String; 3] {
    let (change, count, answer) = (&line[..39], &line[39..50], &line[50..]);
    [change, count, answer].map(|column| column.trim().to_string())
}

#[test]
fn the_sample() {
    let file = "auctions/follow.txt";
    let written = sample("auctions/follow.prices");
    assert_eq!(out(&["auction", "--follow", file], b""), written);
    assert_eq!(out(&["auction", file, "--follow"], b""), written);
    assert_eq!(follow(&sample(file)), written);
    let changes = sample(file).into_bytes();
    assert_eq!(out(&["auction", "--follow", "-"], &changes), written);
    for answer in [
        "   5 held  projected price 49.00, volume 900\n",
        "  no projected price\n",
        "  refused 15: ",
        "  refused 16: ",
    ] {
        assert!(written.contains(answer), "{answer}");
    }
}

/// A line's comment begins with its answer.
#[test]
fn comments_of_the_sample() {
    let changes = sample("auctions/follow.txt");
    let changes = changes.lines().filter(|line| !line.starts_with('#'));
    let comments: Vec<&str> = changes
        .filter_map(|line| Some(line.split_once("# ")?.1))
        .collect();
    let written = sample("auctions/follow.prices");
    assert_eq!(comments.len(), written.lines().count());
    for (comment, line) in comments.iter().zip(written.lines()) {
        let [change, _, answer] = columns(line);
        let without_reason = |words: &str| words.split(':').next().map(str::to_string);
        assert_eq!(without_reason(comment), without_reason(&answer), "{change}");
    }
}

/// The orders of a book, added one after another, have the book's price at the end.
#[test]
fn sample_books() {
    for book in ["document-002", "document-003", "four-steps"] {
        let lines = sample(&format!("auctions/{book}.txt"));
        let is_order = |line: &&str| line.starts_with("buy") || line.starts_with("sell");
        let (orders, others): (Vec<&str>, Vec<&str>) = lines.lines().partition(is_order);
        let mut changes = others.join("\n") + "\n";
        for order in &orders {
            changes += &format!("add {order}\n");
        }
        let table = sample(&format!("auctions/{book}.table"));
        let price = table.lines().last().unwrap().to_string();
        let count = format!("{} held", orders.len());
        assert_eq!(last(&changes), (count, price), "{book}");
    }
}

/// Each column begins at its byte, whatever is written, and two spaces stand nowhere
/// within one.
#[test]
fn the_columns() {
    let changes = "\
# a comment, and an empty line

\tadd   buy limit 49.00 x 900# at the end
add sell limit 42949672.95 x 4294967295
take 4294967295
 take 00 \r
add sell atc x 1";
    let written = "\
add buy limit 49.00 x 900                   1 held  no projected price
add sell limit 42949672.95 x 4294967295     1 held  refused 15: 42949672.95 is above 100000.00
take 4294967295                             1 held  refused 16: no order is held at place 4294967295
take 0                                      0 held  no projected price
add sell atc x 1                            1 held  no projected price
";
    assert_eq!(follow(changes), written);
    for line in written.lines() {
        let cut: Vec<&str> = line.split("  ").filter(|part| !part.is_empty()).collect();
        let cut: Vec<&str> = cut.iter().map(|part| part.trim()).collect();
        assert_eq!(cut, columns(line));
    }
}

#[test]
fn nothing_to_write() {
    for changes in ["", "\n", "# no change\n", "reference 49.50\n"] {
        assert_eq!(follow(changes), "");
    }
}

/// Of the changes after its line; 0 before the first.
#[test]
fn the_reference() {
    let book = "add buy limit 2.00 x 100\nadd sell limit 2.06 x 100\nadd buy ato x 100\n";
    let price = |before: &str, after: &str| {
        let changes = format!("{before}{book}{after}add sell ato x 100\n");
        let (count, answer) = last(&changes);
        assert_eq!(count, "4 held");
        answer
    };
    assert_eq!(price("", ""), "projected price 2.00, volume 100");
    let higher = "projected price 2.06, volume 100";
    assert_eq!(price("reference 2.03\n", ""), higher);
    assert_eq!(price("", "reference 2.03\n"), higher);
    assert_eq!(price("", "reference 42949672.95\n"), higher);
    assert_eq!(price("reference 1.00\n", "reference 2.04\n"), higher);
    let lower = "projected price 2.00, volume 100";
    assert_eq!(price("reference 2.04\n", "reference 2.02\n"), lower);
    assert_eq!(price("reference 2.04\n", "reference -\n"), lower);
    assert_eq!(price("reference 2.04\n", "reference 0.00\n"), lower);
}

/// A refusal is an answer: what is held stays, and the next change is asked.
#[test]
fn refusals() {
    let held = "add buy limit 102.00 x 100\nadd sell ato x 60\n";
    let volume = "is not 1 to 20000000";
    let table = [
        ("take 2", "refused 16: no order is held at place 2"),
        ("take 1024", "refused 16: no order is held at place 1024"),
        (
            "add buy limit 102.10 x 100",
            "refused 15: 102.10 is not legal, lower position 904 (102.00), upper position 905 (102.50)",
        ),
        (
            "add buy limit 100000.01 x 100",
            "refused 15: 100000.01 is above 100000.00",
        ),
        (
            "add sell ato x 0",
            &format!("refused 15: volume 0 {volume}"),
        ),
        (
            "add sell limit 1.00 x 20000001",
            &format!("refused 15: volume 20000001 {volume}"),
        ),
    ];
    for (change, refusal) in table {
        let changes = format!("{held}{change}\n");
        assert_eq!(last(&changes), ("2 held".into(), refusal.into()));
        let price = "projected price 102.00, volume 60";
        let changes = format!("{changes}add sell limit 102.50 x 1\n");
        assert_eq!(last(&changes), ("3 held".into(), price.into()));
    }
    let empty = "refused 16: no order is held at place 0";
    assert_eq!(last("take 0"), ("0 held".into(), empty.into()));
}

/// 14 is found before 15, and an order that is taken out makes room for another.
#[test]
fn too_many_orders() {
    let most = "add buy ato x 1\n".repeat(1_023) + "add sell limit 1.00 x 7\n";
    let price = "projected price 1.00, volume 7";
    assert_eq!(last(&most), ("1024 held".into(), price.into()));
    for more in ["add buy ato x 1\n", "add buy ato x 0\n"] {
        let refusal = "refused 14: more than 1024 orders";
        let changes = format!("{most}{more}");
        assert_eq!(last(&changes), ("1024 held".into(), refusal.into()));
        let changes = format!("{changes}take 0\nadd sell ato x 2\n");
        let price = "projected price 1.00, volume 9";
        assert_eq!(last(&changes), ("1024 held".into(), price.into()));
    }
    let changes = format!("{most}take 1024\n");
    let refusal = "refused 16: no order is held at place 1024";
    assert_eq!(last(&changes), ("1024 held".into(), refusal.into()));
}

/// Each line is answered while the next has not been sent.
#[test]
fn as_soon_as_it_is_read() {
    let mut tool = Command::new(env!("CARGO_BIN_EXE_guvontsira"))
        .args(["auction", "--follow"])
        .stdin(Stdio::piped())
        .stdout(Stdio::piped())
        .spawn()
        .unwrap();
    let mut changes = tool.stdin.take().unwrap();
    let written = BufReader::new(tool.stdout.take().unwrap());
    let (sender, lines) = mpsc::channel();
    thread::spawn(move || {
        written
            .lines()
            .try_for_each(|line| sender.send(line.unwrap()))
    });
    for (change, answer) in [
        ("add buy limit 49.00 x 900", "no projected price"),
        (
            "reference 1.00\nadd sell ato x 600",
            "projected price 49.00, volume 600",
        ),
        ("take 2", "refused 16: no order is held at place 2"),
        ("take 0", "no projected price"),
    ] {
        writeln!(changes, "{change}").unwrap();
        let line = lines.recv_timeout(Duration::from_secs(60)).unwrap();
        let [written, _, found] = columns(&line);
        assert_eq!(written, change.lines().last().unwrap());
        assert_eq!(found, answer);
    }
    drop(changes);
    assert!(tool.wait().unwrap().success());
}

/// File, line and reason, after what was read before it has been written.
#[test]
fn bad_lines() {
    let lines: [(&[u8], &str); 6] = [
        (b"buy ato x 1", r#""buy": expected add, take or reference"#),
        (b"add mp x 1", r#""mp": expected buy or sell"#),
        (b"take", "the line ends: expected a place, 0 to 4294967295"),
        (b"take 0 now", r#""now": expected the end of the line"#),
        (
            b"reference 49",
            r#""49": expected a price in baht, as 50.25"#,
        ),
        (b"# \xff", "not UTF-8 text"),
    ];
    for (line, reason) in lines {
        let before = b"# changes\nadd buy ato x 1\n\ntake 1\n";
        let changes = [before, line, b"\ntake 0\n"].concat();
        let output = run(&["auction", "--follow"], &changes);
        assert_eq!(output.status.code(), Some(1));
        assert_eq!(
            text(&output.stderr),
            format!("standard input:5: {reason}\n")
        );
        let written = text(&output.stdout);
        let changes: Vec<String> = written
            .lines()
            .map(|line| columns(line)[0].clone())
            .collect();
        assert_eq!(changes, ["add buy ato x 1", "take 1"]);
    }
}

#[test]
fn bad_files() {
    let said = error(&["auction", "--follow", "none"], b"", 1);
    assert!(said.starts_with("none: ") && said.lines().count() == 1);
    let said = error(&["auction", "--follow", "auctions"], b"", 1);
    assert!(said.starts_with("auctions: ") && said.lines().count() == 1);
    // A book is no text of changes.
    assert_eq!(
        error(
            &["auction", "--follow", "auctions/document-003.txt"],
            b"",
            1
        ),
        "auctions/document-003.txt:2: \"buy\": expected add, take or reference\n"
    );
}

/// docs/TEXT.md: its changes with what the tool writes of them.
#[test]
fn as_printed() {
    let text = fs::read_to_string(samples().join("../docs/TEXT.md")).unwrap();
    let (_, text) = text.split_once("\n## The changes of a list\n").unwrap();
    let blocks: Vec<&str> = text.split("```").collect();
    let [changes, written] = [1, 3].map(|place| blocks[place].strip_prefix("text\n").unwrap());
    assert_eq!(follow(changes), written);
}
