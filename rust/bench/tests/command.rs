//! The program with arguments, good and bad.

use std::process::{Command, Output};

fn bench(line: &str) -> Output {
    Command::new(env!("CARGO_BIN_EXE_bench"))
        .args(line.split_whitespace())
        .output()
        .unwrap()
}

/// The table without what stands above it.
fn table(line: &str) -> Vec<String> {
    let output = bench(line);
    assert!(output.status.success(), "{line}");
    let text = String::from_utf8(output.stdout).unwrap();
    let lines = text.lines().map(String::from);
    lines
        .skip_while(|line| !line.starts_with("mixture "))
        .collect()
}

#[test]
fn bad_arguments_fail_with_the_usage() {
    for line in [
        "orders",
        "--at 16,64",
        "--repeats 0",
        "--repeats 1000000000000",
        "--only it",
        "--only",
        "--only gate --only gate",
        "auction --at 16,64,10",
        "auction --only tuned",
        "volumes --at 16,64,10",
        "current --at 16,64,10",
        "current --only tuned",
    ] {
        let output = bench(line);
        assert_eq!(output.status.code(), Some(1), "{line}");
        assert!(output.stdout.is_empty(), "{line}");
        let error = String::from_utf8(output.stderr).unwrap();
        let (message, usage) = error.split_once('\n').unwrap();
        assert!(!message.is_empty(), "{line}");
        assert!(usage.starts_with("usage: bench "), "{line}");
    }
}

#[test]
fn one_size_of_two_mixtures() {
    let table = table("--repeats 1 --at 2,3,31 session cancel-match");
    let columns: Vec<Vec<&str>> = table
        .iter()
        .map(|line| line.split_whitespace().collect())
        .collect();
    assert_eq!(columns.len(), 3);
    assert_eq!(columns[1][..5], ["cancel-match", "2", "3", "31", "2000"]);
    assert_eq!(columns[2][..5], ["session", "2", "3", "31", "20"]);
    // Three times and two ratios.
    assert_eq!(columns[1].len(), 10);
}

#[test]
fn what_is_said_of_those_that_are_timed() {
    for (line, first) in [
        ("", "The linked gate, the second implementation and"),
        (
            "--only tuned",
            "Only tuned is timed, and nothing is compared.",
        ),
    ] {
        let output = bench(&format!("{line} --repeats 1 --at 1,1,0 session"));
        let text = String::from_utf8(output.stdout).unwrap();
        assert!(text.starts_with(first), "{text}");
        assert_eq!(text.contains("take turns"), line.is_empty(), "{text}");
    }
}

#[test]
fn one_implementation() {
    for name in ["gate", "second", "tuned"] {
        let table = table(&format!("--only {name} --repeats 1 --at 1,1,0"));
        assert!(table[0].ends_with(&format!(" {name} ns")));
        // Without rows there is no cancel-match.
        assert_eq!(table.len(), 1 + 5);
    }
}

/// The columns of the auction's table, or of another of this name, which stands alone.
fn columns_below(name: &str, line: &str) -> Vec<Vec<String>> {
    let output = bench(line);
    assert!(output.status.success());
    let text = String::from_utf8(output.stdout).unwrap();
    assert!(!text.contains("\nmixture "), "{text}");
    let heading = format!("{name} ");
    let table = text.lines().skip_while(|line| !line.starts_with(&heading));
    table
        .map(|line| line.split_whitespace().map(String::from).collect())
        .collect()
}

#[test]
fn only_the_auction() {
    for name in ["auction", "volumes"] {
        let columns = columns_below("auction", &format!("{name} --repeats 1"));
        // Two sorts of prices at three lengths, and the mean.
        assert_eq!(columns.len(), 1 + 6 + 1);
        assert_eq!(columns[1][..4], [name, "shared", "16", "512"]);
        assert_eq!(columns[6][..4], [name, "different", "1024", "8"]);
        assert_eq!(columns[7][0], name);
        // Two times and a ratio.
        assert_eq!(columns[1].len(), 7);
    }
}

#[test]
fn both_calls_of_the_auction() {
    let columns = columns_below("auction", "volumes auction --repeats 1 --only gate");
    assert_eq!(columns.len(), 1 + 12 + 2);
    for pair in columns[1..].chunks(2) {
        let [two_lists, one_list] = pair else {
            panic!("{pair:?}");
        };
        assert_eq!([&two_lists[0], &one_list[0]], ["auction", "volumes"]);
        // Of the same books, or the mean; then the time.
        let time = two_lists.len() - 1;
        assert_eq!(two_lists[1..time], one_list[1..time]);
    }
}

#[test]
fn a_list_kept_current() {
    let columns = columns_below("current", "current --repeats 1");
    // Add and take, each with the price, at two sorts of prices and five sizes, and the means.
    assert_eq!(columns.len(), 1 + 4 * 10 + 4);
    assert_eq!(columns[1][..4], ["add", "shared", "16", "16"]);
    assert_eq!(columns[7][..4], ["take", "shared", "16", "1024"]);
    assert_eq!(
        columns[38][..4],
        ["volumes-add", "different", "1024", "1024"]
    );
    assert_eq!(
        columns[40][..4],
        ["volumes-take", "different", "1024", "1024"]
    );
    assert_eq!(columns[44][0], "volumes-take");
    // Two times, their ratio, and how many times the price each takes.
    for line in &columns[1..41] {
        assert_eq!(line.len(), 9);
    }
    for price in [38, 40] {
        assert_eq!(columns[price][7..], ["1.00", "1.00"]);
    }
}
