//! What docs/RULES.md and docs/TEXT.md print is so: their tables are read here
//! and run.

mod common;

use std::fs;

use events::Change;
use guvontsira::{Answer, Auction, AuctionAnswer, AuctionVolumes, CurrentAuction};
use guvontsira::{Nearest, Range, State, nearest, position, price};

use common::{book, typed};

fn document(name: &str) -> String {
    let path = format!("{}/../../docs/{name}", env!("CARGO_MANIFEST_DIR"));
    fs::read_to_string(&path).unwrap_or_else(|error| panic!("{path}: {error}"))
}

/// What stands under a heading.
fn section<'a>(document: &'a str, heading: &str) -> &'a str {
    let mut sections = document.split("\n## ");
    let found = sections.find_map(|section| section.strip_prefix(&format!("{heading}\n")));
    found.unwrap_or_else(|| panic!("no heading {heading:?}"))
}

/// The cells of each row of a section's tables, without the first rows and
/// without ticks.
fn rows(section: &str) -> Vec<Vec<String>> {
    let is_table = |line: &&str| line.starts_with('|');
    let tables = section.split("\n\n").map(str::trim_start).filter(is_table);
    let rows = tables.flat_map(|table| table.lines().skip(2).filter(is_table));
    let rows: Vec<_> = rows.map(cells).collect();
    assert!(!rows.is_empty(), "no table in {section}");
    rows
}

fn cells(row: &str) -> Vec<String> {
    let inside = row.trim_matches('|');
    inside
        .split('|')
        .map(|cell| cell.trim().replace('`', ""))
        .collect()
}

/// The number that a text begins with.
fn leading_number(text: &str) -> usize {
    let digits = text.split(|c: char| !c.is_ascii_digit()).next();
    digits.unwrap_or_default().parse().unwrap()
}

fn satang(baht: &str) -> u32 {
    baht.replace('.', "").parse().unwrap()
}

/// The row of the ladder's tables that begins so, without its first cell.
fn ladder_row(rules: &str, name: &str) -> Vec<String> {
    let mut words = section(rules, "Words").lines();
    let row = words.find(|line| line.starts_with(&format!("| {name}")));
    cells(row.unwrap_or_else(|| panic!("no row {name:?}")))[1..].to_vec()
}

#[test]
fn the_ladder() {
    let rules = document("RULES.md");
    let row = |name| ladder_row(&rules, name);
    let (from, step, first) = (row("from"), row("step"), row("position of"));
    assert_eq!([from.len(), step.len(), first.len()], [8; 3]);
    for ((from, step), first) in from.iter().zip(&step).zip(&first) {
        let (from, step, first) = (satang(from), satang(step), first.parse().unwrap());
        assert_eq!(position(from), Some(first));
        assert_eq!(price(first + 1), Some(from + step));
        assert_eq!(position(from + step), Some(first + 1));
        let below = (first > 1).then_some(first - 1);
        assert_eq!(price(first - 1).and_then(position), below);
    }
}

#[test]
fn the_nearest_positions() {
    let rules = document("RULES.md");
    let row = |name| ladder_row(&rules, name);
    let (prices, legal) = (row("price (baht)"), row("legal"));
    let (lower, upper) = (row("lower position"), row("upper position"));
    assert_eq!([lower.len(), upper.len(), legal.len()], [prices.len(); 3]);
    for (place, price) in prices.iter().enumerate() {
        let printed = Nearest {
            lower: lower[place].parse().unwrap(),
            upper: upper[place].parse().unwrap(),
            legal: legal[place] == "yes",
        };
        assert_eq!(nearest(satang(price)), Some(printed), "{price}");
    }
}

/// The fields of an event follow on each other and fill its length, which is
/// the gate's.
#[test]
fn the_bytes_of_events() {
    let rules = document("RULES.md");
    let rows = rows(section(&rules, "Events"));
    for (row, kind) in rows.iter().zip(1..) {
        let [name, length, fields, _] = &row[..] else {
            panic!("{row:?}");
        };
        assert!(name.starts_with(&format!("{kind} ")));
        let length: usize = length.parse().unwrap();
        let mut end = 1;
        for (place, _) in fields.match_indices('@') {
            let (byte, width) = fields[place + 1..].split_once(':').unwrap();
            assert_eq!(byte.parse::<usize>().unwrap(), end, "{row:?}");
            end += leading_number(width);
        }
        assert_eq!(end, length);
        for (length, is_whole) in [(length - 1, false), (length, true), (length + 1, false)] {
            let mut event = vec![0; length];
            event[0] = kind;
            let answer = State::new(1, 1).unwrap().handle(&event);
            assert_eq!(answer != Answer::Refused(2), is_whole);
        }
    }
    let unknown = u8::try_from(rows.len() + 1).unwrap();
    assert_eq!(
        State::new(1, 1).unwrap().handle(&[unknown]),
        Answer::Refused(3)
    );
}

#[test]
fn the_numbers_of_answers() {
    let rules = document("RULES.md");
    let verdicts = rows(section(&rules, "Verdicts"));
    let numbered = verdicts.iter().filter(|row| row.len() == 6);
    let mut count = 0;
    for row in numbered {
        let answer = Answer::from_number(row[1].parse().unwrap()).unwrap();
        assert_eq!(row[0].split(',').next(), Some(&answer.to_string()[..]));
        count += 1;
    }
    let known = (100..1_000).filter_map(Answer::from_number).count();
    assert_eq!(count, known);

    let refusals = rows(section(&rules, "Refusals"));
    let numbers: Vec<u32> = refusals.iter().map(|row| row[0].parse().unwrap()).collect();
    let known = (1..100).filter(|&number| Answer::from_number(number).is_some());
    assert_eq!(numbers, known.collect::<Vec<_>>());
}

#[test]
fn the_words_of_records() {
    let rules = document("RULES.md");
    let rows = rows(section(&rules, "The words of a state"));
    // Of a desk, what stands before its rows.
    for (row, size) in rows.iter().zip([4, 17, 3, 9]) {
        let words = row[2].split('@').skip(1).map(leading_number);
        assert!(words.eq(0..size), "{row:?}");
    }
    assert_eq!(rows.len(), 4);
}

/// The state after these lines, and their answers.
fn after(text: &str) -> (State, Vec<Answer>) {
    let events = events::encode_each(text).unwrap_or_else(|wrong| panic!("{text}: {wrong}"));
    let mut state = State::new(8, 16).unwrap();
    let answers = state.run_list(&events);
    (state, answers)
}

fn answers(text: &str) -> Vec<Answer> {
    after(text).1
}

/// Empty cells of a row are no figures.
#[test]
fn the_ranges() {
    let rules = document("RULES.md");
    let rows = rows(section(&rules, "The day's range"));
    for row in &rows {
        let [close, old, new, dividend, subscription, _, floor, ceiling] = &row[..] else {
            panic!("{row:?}");
        };
        let mut day = format!("setup 0 lot 100 close {close}\n");
        if !old.is_empty() {
            day += &format!(
                "figures 0 old {old} new {new} dividend {dividend} subscription {subscription}\n"
            );
        }
        let (state, answers) = after(&day);
        assert!(answers.iter().all(|answer| *answer == Answer::Ok));
        let printed = Range {
            floor: satang(floor),
            ceiling: satang(ceiling),
        };
        assert_eq!(state.range(0), Some(printed), "{row:?}");
    }
    assert!(rows.len() > 8);
}

/// A cell of satang or shares; none is 0.
fn count(cell: &str) -> u64 {
    cell.replace(['.', '-'], "").parse().unwrap_or(0)
}

/// The base as printed, times the sum of the shares, is what they are divided into.
#[test]
fn the_bases() {
    let rules = document("RULES.md");
    for row in rows(section(&rules, "The day's range")) {
        let base = &row[5];
        let Some((_, decimals)) = base.split_once('.') else {
            assert!(count(&row[0]) < 1_00, "{row:?}");
            continue;
        };
        let unit = 10_u64.pow(u32::try_from(decimals.len()).unwrap()) / 100;
        let [close, old, new, dividend, subscription] = [0, 1, 2, 3, 4].map(|at| count(&row[at]));
        let old = old.max(1);
        let whole = ((close - dividend) * old + subscription * new).min(close * (old + new));
        assert_eq!(count(base) * (old + new), unit * whole, "{row:?}");
    }
}

#[test]
fn the_edges() {
    let rules = document("RULES.md");
    let mut tried = 0;
    for row in rows(section(&rules, "Edges")) {
        let [answer, before, last, passes, gets] = &row[..] else {
            panic!("{row:?}");
        };
        let day = format!("{}\n{last}\n", before.replace("; ", "\n"));
        for (values, is_answered) in [(passes, false), (gets, true)] {
            for value in values.split(", ") {
                let answers = answers(&day.replace('_', value));
                let (found, earlier) = answers.split_last().unwrap();
                let good = |answer: &Answer| matches!(answer, Answer::Ok | Answer::Accept);
                assert!(earlier.iter().all(good), "{value}: {row:?}: {answers:?}");
                let expected = if is_answered {
                    &found.to_string() == answer
                } else {
                    good(found)
                };
                assert!(expected, "{value}: {row:?}: {found}");
                tried += 1;
            }
        }
    }
    assert!(tried > 50, "{tried}");
}

/// Refusal 12 takes more events than a row of the table has room for.
#[test]
fn a_full_desk() {
    let mut day = String::from("session open\nprices 0 main offer 50.25\n");
    for number in 1..=32 {
        day += &format!("order 0 no {number} security 0 main buy limit 50.00 x 100 front\n");
    }
    let last = |line: &str| *answers(&(day.clone() + line)).last().unwrap();
    let order = |words: &str| last(&format!("order {words}"));
    assert_eq!(
        order("0 no 33 security 0 main buy limit 50.00 x 100 front"),
        Answer::Refused(12)
    );
    assert_eq!(
        order("0 no 33 security 0 main buy mp x 100 front"),
        Answer::Refused(12)
    );
    assert_eq!(
        order("1 no 33 security 0 main buy mp x 100 front"),
        Answer::Accept
    );
    assert_eq!(
        order("0 no 33 security 0 main buy ato x 100 front").to_string(),
        "reject S"
    );
    assert_eq!(
        order("1 no 33 security 0 main buy limit 50.00 x 100 front"),
        Answer::Accept
    );
    let again = |clock| {
        last(&format!(
            "cancel 0 no 1\nclock {clock}\norder 0 no 33 security 0 main buy limit 50.00 x 100 front"
        ))
    };
    assert_eq!(again("00:01:00.000"), Answer::Refused(12));
    assert_eq!(again("00:01:00.001"), Answer::Accept);
}

/// MP rows count for refusal 12 as others do, and no cancel of one is kept.
#[test]
fn a_desk_full_of_mp_rows() {
    let mut day = String::from("session open\nprices 0 main offer 50.25\n");
    for number in 1..=32 {
        day += &format!("order 0 no {number} security 0 main buy mp x 100 front\n");
    }
    for kind in ["limit 50.00", "mp"] {
        let after = |line: &str| {
            let order = format!("order 0 no 33 security 0 main buy {kind} x 100 front");
            *answers(&format!("{day}{line}\n{order}")).last().unwrap()
        };
        assert_eq!(after(""), Answer::Refused(12));
        assert_eq!(after("match 0 no 1 x 50"), Answer::Refused(12));
        assert_eq!(after("rest 0 no 1 at 50.50"), Answer::Refused(12));
        assert_eq!(
            after("rest 0 no 1 at 50.50\ncancel 0 no 1"),
            Answer::Refused(12)
        );
        assert_eq!(after("cancel 0 no 1"), Answer::Accept);
        assert_eq!(after("match 0 no 1 x 100"), Answer::Accept);
    }
}

/// The answer in the words of the table, the same with one scratch list.
fn auction(orders: &str, reference: &str) -> String {
    let lines = orders.replace("; ", "\n");
    let (orders, reference) = book(&format!("reference {reference}\n{lines}"));
    let answer = Auction::new().price(&orders, reference);
    assert_eq!(AuctionVolumes::new().price(&orders, reference), answer);
    in_words(answer)
}

fn in_words(answer: AuctionAnswer) -> String {
    match answer {
        AuctionAnswer::Price { price, volume } => format!("{} x {volume}", events::Price(price)),
        AuctionAnswer::None => "none".into(),
        AuctionAnswer::Refused(number) => format!("refused {number}"),
    }
}

#[test]
fn the_auctions() {
    let rules = document("RULES.md");
    let rows = rows(section(&rules, "The price of an auction"));
    let books = rows.iter().filter(|row| row.len() == 4);
    for row in books.clone() {
        assert_eq!(auction(&row[0], &row[1]), row[2], "{row:?}");
    }
    assert!(books.count() > 12);
    let refusals = rows.iter().filter_map(|row| row[0].parse().ok());
    assert_eq!(refusals.collect::<Vec<u8>>(), [14, 15]);
}

#[test]
fn the_volumes_of_an_auction() {
    let rules = document("RULES.md");
    let rows = rows(section(&rules, "The price of an auction"));
    let is_order = |row: &&Vec<String>| row.len() == 2 && row[0].contains(" x ");
    let rows = rows.iter().filter(is_order);
    let lines: Vec<&str> = rows.clone().map(|row| &row[0][..]).collect();
    let printed: Vec<u64> = rows.map(|row| row[1].parse().unwrap()).collect();
    let (orders, reference) = book(&lines.join("\n"));
    assert_eq!(orders.len(), 5);
    let mut auction = AuctionVolumes::new();
    auction.price(&orders, reference);
    assert_eq!(auction.volumes(), printed);
}

#[test]
fn the_current_auction() {
    let rules = document("RULES.md");
    let rows = rows(section(&rules, "An auction kept current"));
    let mut auction = CurrentAuction::new();
    let changes = rows.iter().filter(|row| row.len() == 4);
    for row in changes.clone() {
        let reference = book(&format!("reference {}", row[1])).1;
        let answer = match events::change(&row[0], 1) {
            Ok(Some(Change::Add(order))) => auction.add(typed(&order), reference),
            Ok(Some(Change::Take { place })) => auction.take(place, reference),
            other => panic!("{row:?}: {other:?}"),
        };
        assert_eq!(auction.len().to_string(), row[2], "{row:?}");
        assert_eq!(in_words(answer), row[3], "{row:?}");
    }
    assert!(changes.count() > 12);
    let refusals = rows.iter().filter_map(|row| row[0].parse().ok());
    assert_eq!(refusals.collect::<Vec<u8>>(), [14, 15, 16]);
}

fn back(line: &str) -> String {
    let bytes = events::encode(line).unwrap_or_else(|wrong| panic!("{line}: {wrong}"));
    events::decode(&bytes).unwrap().trim_end().to_string()
}

#[test]
fn the_text_form() {
    let text = document("TEXT.md");
    let example = section(&text, "An example of each");
    let example = example
        .split("```")
        .nth(1)
        .unwrap()
        .strip_prefix("text\n")
        .unwrap();
    assert!(example.lines().count() > 7);
    for line in example.lines() {
        assert_eq!(back(line), line);
    }
    for row in rows(section(&text, "What may be left out")) {
        assert_eq!(back(&row[0]), row[1]);
    }
    for row in rows(section(&text, "What the gate refuses can be written too")) {
        assert_eq!(back(&row[0]), row[0]);
        assert!(
            matches!(answers(&row[0])[..], [Answer::Refused(5 | 6 | 13)]),
            "{row:?}"
        );
    }
    for row in rows(section(&text, "Errors in lines")) {
        assert_eq!(events::encode(&row[0]).unwrap_err().to_string(), row[1]);
    }
    let mut books = 0;
    for row in rows(section(&text, "Errors in a book")) {
        if row[1].starts_with("line ") {
            assert_eq!(events::book(&row[0]).unwrap_err().to_string(), row[1]);
            books += 1;
        }
    }
    assert!(books > 5);
    for row in rows(section(&text, "Errors in changes")) {
        assert_eq!(events::change(&row[0], 1).unwrap_err().to_string(), row[1]);
    }
    for row in rows(section(&text, "Errors in bytes")) {
        let bytes = events::encode(&row[0]).unwrap();
        assert_eq!(events::decode(&bytes).unwrap_err().to_string(), row[1]);
    }
}
