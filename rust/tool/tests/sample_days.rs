//! Every sample day: its listing as stored, and the answers those of the day
//! program.

mod common;

use std::fs;

use common::{out, sample, samples};

fn days() -> Vec<String> {
    let files = fs::read_dir(samples()).unwrap();
    let names = files.map(|file| file.unwrap().file_name().into_string().unwrap());
    let mut days: Vec<String> = names
        .filter_map(|name| name.strip_suffix(".txt").map(str::to_string))
        .collect();
    days.sort();
    days
}

#[test]
fn there_are_some() {
    let days = days();
    assert!(days.contains(&"day".into()) && days.contains(&"paper".into()));
}

#[test]
fn listings() {
    for day in days() {
        let listing = out(&["day", &format!("{day}.txt")], b"");
        assert_eq!(listing, sample(&format!("{day}.annotated")), "{day}");
    }
}

#[test]
fn answers_of_the_day_program() {
    for day in days() {
        let listing = sample(&format!("{day}.listing"));
        // index, kind, answer
        let answers = listing
            .lines()
            .skip(1)
            .map(|line| line.splitn(3, ' ').nth(2).unwrap().to_string() + "\n");
        let quiet = out(&["day", &format!("{day}.txt"), "--quiet"], b"");
        assert_eq!(quiet, answers.collect::<String>(), "{day}");
    }
}

/// A line's comment begins with its answer, as the listing gives it.
#[test]
fn comments_of_the_days() {
    for day in days() {
        let written = sample(&format!("{day}.txt"));
        let comments = written.lines().filter(|line| !line.starts_with('#'));
        let comments = comments.filter_map(|line| line.split_once("# "));
        let quiet = out(&["day", &format!("{day}.txt"), "--quiet"], b"");
        assert_eq!(comments.clone().count(), quiet.lines().count(), "{day}");
        for ((event, comment), answer) in comments.zip(quiet.lines()) {
            let said = comment.split(':').next().unwrap();
            assert_eq!(said, answer, "{day}: {event}");
        }
    }
}
