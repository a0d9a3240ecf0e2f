//! Desks and securities after a day, and the ladder.

mod common;

use common::out;

const DAY: &[u8] = b"\
clock 10:00:00
session pre-close
setup 3 lot 50 free ipo 12.05
setup 4 lot 100 close 65.60
setup 5 lot 100 close 65.50
setup 5 lot 100 close 100000.01
prices 3 foreign projected 12.00 last 11.90 bid 11.80 offer 12.10
order 1 no 70000 security 3 main sell limit 12.00 x 1000 online
order 1 no 8 security 15 foreign buy limit 1000.00 x 100 front
order 1 no 9 security 3 main buy atc x 50 dma
order 1 no 10 security 3 main buy atc x 51 dma
match 1 no 8 x 40
cancel 1 no 70000
clock 10:00:01.250
";

#[test]
fn desks() {
    assert_eq!(
        out(&["desk", "-", "1"], DAY),
        "\
customer 1 at 10:00:01.250, session pre-close

accepted  3
warned    0
rejected  1

   no  security  board    side  type     price  volume  mark
70000         3  main     sell  limit    12.00    1000  cancelled at 10:00:00.000
    8        15  foreign  buy   limit  1000.00      60  open
    9         3  main     buy   atc          -      50  open
"
    );
    assert_eq!(
        out(&["desk", "-", "7"], b""),
        "\
customer 7 at 00:00:00.000, session closed

accepted  0
warned    0
rejected  0

no rows
"
    );
    let last = out(&["desk", "--customers", "256", "-", "255"], b"");
    assert!(last.starts_with("customer 255 at "));
}

/// An MP row has no price; the rest of its order is a limit in its place.
#[test]
fn mp_rows() {
    let entered = "\
session open
prices 3 main bid 49.75 offer 50.25
order 2 no 1 security 3 main buy mp x 300 front
order 2 no 2 security 3 main sell mp x 200 front
match 2 no 1 x 100
";
    let desk = |last: &str| out(&["desk", "-", "2"], format!("{entered}{last}").as_bytes());
    let title = "customer 2 at 00:00:00.000, session";
    let counters = "\naccepted  2\nwarned    0\nrejected  0\n\n";
    assert_eq!(
        desk(""),
        format!(
            "{title} open\n{counters}\
no  security  board  side  type  price  volume  mark
 1         3  main   buy   mp        -     200  open
 2         3  main   sell  mp        -     200  open
"
        )
    );
    assert_eq!(
        desk("rest 2 no 1 at 50.50\n"),
        format!(
            "{title} open\n{counters}\
no  security  board  side  type   price  volume  mark
 1         3  main   buy   limit  50.50     200  open
 2         3  main   sell  mp         -     200  open
"
        )
    );
    assert_eq!(
        desk("rest 2 no 1 at 50.50\ncancel 2 no 1\ncancel 2 no 2\n"),
        format!(
            "{title} open\n{counters}\
no  security  board  side  type   price  volume  mark
 1         3  main   buy   limit  50.50     200  cancelled at 00:00:00.000
"
        )
    );
    assert_eq!(
        desk("session break\n"),
        format!("{title} break\n{counters}no rows\n")
    );
}

#[test]
fn securities() {
    assert_eq!(
        out(&["security", "-", "3"], DAY),
        "\
security 3 at 10:00:01.250, session pre-close

lot          50
free         yes, no ceiling and floor
first day    no
prior close  -
IPO price    12.05
figures      -
range        -

board    projected   last    bid  offer
main             -      -      -      -
foreign      12.00  11.90  11.80  12.10
"
    );
    assert_eq!(
        out(&["security", "day.txt", "1"], b""),
        "\
security 1 at 16:30:00.000, session closed

lot          100
free         yes, no ceiling and floor
first day    yes
prior close  -
IPO price    12.00
figures      -
range        -

board    projected   last    bid  offer
main             -  20.00  19.90  20.10
foreign          -      -      -      -
"
    );
    let adjusted = out(&["security", "-", "4"], DAY);
    assert!(adjusted.contains(
        "\nprior close  65.60, lower position 762 (65.50), upper position 763 (65.75)\n"
    ));
    // The last setup is refused.
    assert!(out(&["security", "-", "5"], DAY).contains("\nprior close  65.50\n"));
    let last = out(&["security", "-", "1023", "--securities", "1024"], b"");
    assert!(last.starts_with("security 1023 at "));
}

/// The figures and the range of security 0 after these lines.
fn figures_and_range(lines: &str) -> [String; 2] {
    let security = out(&["security", "-", "0"], lines.as_bytes());
    ["figures", "range"].map(|name| {
        let line = security.lines().find_map(|line| line.strip_prefix(name));
        line.unwrap().trim_start().to_string()
    })
}

#[test]
fn ranges() {
    let table = [
        ("", "-", "-"),
        (
            "setup 0 lot 100 close 150.00\n",
            "-",
            "floor 105.00, ceiling 195.00",
        ),
        (
            "setup 0 lot 100 close 150.00\nfigures 0 old 2 new 3 subscription 10.00\n",
            "old 2, new 3, dividend -, subscription 10.00",
            "floor 46.25, ceiling 85.75",
        ),
        (
            "setup 0 lot 100 free close 10.00\nfigures 0 old 1 new 0 dividend 0.50\n",
            "old 1, new 0, dividend 0.50, subscription -",
            "-",
        ),
        (
            "setup 0 lot 100 close 1.00\nfigures 0 old 1 new 1 dividend 0.97\n",
            "old 1, new 1, dividend 0.97, subscription -",
            "floor 0.02, ceiling 0.01, no limit is within",
        ),
    ];
    for (lines, figures, range) in table {
        assert_eq!(figures_and_range(lines), [figures, range], "{lines}");
    }
}

/// Orders at the ends of the range, and one step past them.
#[test]
fn ranges_and_orders() {
    let right = "figures 0 old 2 new 3 dividend 0.01 subscription 0.50\n";
    for (close, figures) in [
        ("150.00", ""),
        ("150.00", right),
        ("65.60", ""),
        ("65.60", right),
        ("2.01", right),
        ("99999.99", right),
    ] {
        let day = format!("session open\nsetup 0 lot 100 close {close}\n{figures}");
        let [_, range] = figures_and_range(&day);
        let range = range.strip_prefix("floor ").unwrap();
        let (floor, ceiling) = range.split_once(", ceiling ").unwrap();
        let answer = |limit: &str| {
            let order = format!("order 0 no 1 security 0 main buy limit {limit} x 100 dma\n");
            let answers = out(&["day", "-", "--quiet"], format!("{day}{order}").as_bytes());
            answers.lines().last().unwrap().to_string()
        };
        for within in [floor, ceiling] {
            assert_eq!(answer(within), "accept", "{day}{within}");
        }
        let below = ladder_line(floor, "next below").concat();
        let above = ladder_line(ceiling, "next above").concat();
        for outside in [below, above].iter().filter(|price| *price != "-") {
            assert_eq!(answer(outside), "reject C", "{day}{outside}");
        }
    }
}

/// In bytes as in text.
#[test]
fn bytes() {
    let bytes = common::run(&["encode"], DAY).stdout;
    for command in [["desk", "-", "1"], ["security", "-", "3"]] {
        assert_eq!(out(&command, &bytes), out(&command, DAY));
    }
}

#[test]
fn ladder() {
    assert_eq!(
        out(&["ladder", "50.00"], b""),
        "\
50.00 is legal, position 700
next below  49.75
next above  50.25

legal within   from     to  outside
10 positions  47.50  52.50  warn 10
30 percent    35.00  65.00  warn 30
50 percent    25.00  75.00  reject Q
"
    );
    assert_eq!(
        out(&["ladder", "0.01"], b""),
        "\
0.01 is legal, position 1
next below  -
next above  0.02

legal within  from    to  outside
10 positions  0.01  0.11  warn 10
30 percent    0.01  0.01  warn 30
50 percent    0.01  0.01  reject Q
"
    );
    assert_eq!(
        out(&["ladder", "100000.00"], b""),
        "\
100000.00 is legal, position 51100
next below  99998.00
next above  -

legal within      from         to  outside
10 positions  99980.00  100000.00  warn 10
30 percent    70000.00  100000.00  warn 30
50 percent    50000.00  100000.00  reject Q
"
    );
}

#[test]
fn ladder_between_two_steps() {
    assert_eq!(
        out(&["ladder", "65.60"], b""),
        "\
65.60 is not legal, lower position 762 (65.50), upper position 763 (65.75)
next below  65.50
next above  65.75

legal within   from     to  outside
10 positions  63.25  68.00  warn 10
30 percent    46.00  85.25  warn 30
50 percent    33.00  98.25  reject Q
"
    );
    assert_eq!(
        out(&["ladder", "99999.99"], b""),
        "\
99999.99 is not legal, lower position 51099 (99998.00), upper position 51100 (100000.00)
next below  99998.00
next above  100000.00

legal within      from         to  outside
10 positions  99980.00  100000.00  warn 10
30 percent    70000.00  100000.00  warn 30
50 percent    50000.00  100000.00  reject Q
"
    );
}

/// What the ladder says of a price in the line that begins so.
fn ladder_line(price: &str, name: &str) -> Vec<String> {
    let ladder = out(&["ladder", price], b"");
    let line = ladder.lines().find_map(|line| line.strip_prefix(name));
    let words = line.unwrap().split_whitespace();
    words.map(str::to_string).collect()
}

/// Orders at the ends of the ten positions, and one step past them.
#[test]
fn ladder_and_orders() {
    let answer = |close: &str, limit: &str| {
        let day = format!(
            "session pre-open\nsetup 0 lot 100 close {close}\n\
             order 0 no 1 security 0 main buy limit {limit} x 100 online\n"
        );
        let answers = out(&["day", "-", "--quiet"], day.as_bytes());
        answers.strip_prefix("ok\nok\n").unwrap().to_string()
    };
    for close in [
        "65.60", "24.50", "4.99", "2.01", "399.99", "0.50", "99979.99",
    ] {
        let ends = ladder_line(close, "10 positions");
        let (from, to) = (&ends[0], &ends[1]);
        for within in [from, to] {
            assert_eq!(answer(close, within), "accept\n", "{close}: {within}");
        }
        let below = ladder_line(from, "next below").concat();
        let above = ladder_line(to, "next above").concat();
        for outside in [below, above] {
            assert_eq!(answer(close, &outside), "warn 10\n", "{close}: {outside}");
        }
    }
}
