//! The day program's listing.

mod common;

use common::*;
use second::day::listing;
use second::encode;

/// The input that the paper describes beside its listing.
fn example() -> Vec<u8> {
    [
        encode::session(OPEN),
        prices(MAIN, [0, 50_00, 49_75, 50_25]),
        encode::order(&buy(1, 50_00, 100)),
        encode::order(&sell(2, 50_00, 100)),
        encode::cancel(0, 1),
        encode::cancel(0, 1),
    ]
    .concat()
}

const EXAMPLE: &str = "\
screen 8 16
0 2 ok
1 4 ok
2 5 accept
3 5 reject W
4 6 ok
5 6 refused 10
";

#[test]
fn the_example_of_the_paper() {
    assert_eq!(listing(&example()), EXAMPLE);
}

#[test]
fn nothing_read_is_only_the_opening() {
    assert_eq!(listing(&[]), "screen 8 16\n");
}

#[test]
fn an_unknown_kind_or_a_cut_event_ends_it() {
    for kind in [0, 10, 255] {
        let mut input = example();
        input.push(kind);
        input.extend(encode::session(OPEN));
        assert_eq!(listing(&input), format!("{EXAMPLE}6 {kind} refused 3\n"));
        assert_eq!(
            listing(&[kind]),
            format!("screen 8 16\n0 {kind} refused 3\n")
        );
    }
    let lengths = [5, 2, 14, 20, 21, 7, 11, 11, 15];
    for (kind, length) in (1..).zip(lengths) {
        for left in 1..length {
            let mut input = example();
            input.push(kind);
            input.resize(input.len() + left - 1, 1);
            assert_eq!(listing(&input), format!("{EXAMPLE}6 {kind} refused 2\n"));
        }
    }
}

#[test]
fn other_refusals_do_not_end_it() {
    let input = [
        encode::session(OPEN),
        encode::cancel(8, 1),
        encode::clock(86_400_000),
        encode::clock(5),
        encode::clock(4),
        encode::order(&buy(1, 50_00, 0)),
        encode::match_report(7, 1, 1),
        encode::rest(7, 1, 2_01),
        encode::rest(7, 1, 2_02),
    ]
    .concat();
    assert_eq!(
        listing(&input),
        "screen 8 16\n0 2 ok\n1 6 refused 4\n2 1 refused 5\n3 1 ok\n4 1 refused 7\n\
         5 5 reject V\n6 7 refused 10\n7 8 refused 6\n8 8 refused 10\n"
    );
}

#[test]
fn what_is_left_of_a_market_order() {
    let input = [
        encode::session(OPEN),
        prices(MAIN, [0, 50_00, 49_75, 50_25]),
        encode::order(&priceless(MP, BUY, 1)),
        encode::order(&sell(2, 50_25, 100)),
        encode::rest(0, 1, 50_50),
        encode::order(&sell(3, 50_50, 100)),
        encode::rest(0, 1, 50_50),
    ]
    .concat();
    assert_eq!(
        listing(&input),
        "screen 8 16\n0 2 ok\n1 4 ok\n2 5 accept\n3 5 accept\n4 8 ok\n5 5 reject W\n\
         6 8 refused 10\n"
    );
}

#[test]
fn figures_of_a_right() {
    let mut other = figures(0, 10_00, 2, 3);
    other[1] = 15;
    let input = [
        encode::session(OPEN),
        setup(0, 0, 150_00, 0),
        figures(0, 10_00, 2, 3),
        encode::order(&buy(1, 85_75, 100)),
        encode::order(&buy(2, 86_00, 100)),
        figures(150_00, 10_00, 2, 3),
        other,
    ]
    .concat();
    assert_eq!(
        listing(&input),
        "screen 8 16\n0 2 ok\n1 3 ok\n2 9 ok\n3 5 accept\n4 5 reject C\n\
         5 9 refused 13\n6 9 refused 13\n"
    );
}

#[test]
fn at_most_65_536_bytes_are_read() {
    let whole = encode::session(CLOSED).repeat(32_768);
    let all = listing(&whole);
    assert_eq!(all.lines().count(), 1 + 32_768);
    assert!(all.ends_with("\n32767 2 ok\n"));
    // What follows is not read, be it another event or an unknown kind.
    for after in [2, 0, 10] {
        let mut input = whole.clone();
        input.push(after);
        assert_eq!(listing(&input), all);
    }
    // An event across the end is cut.
    let mut input = encode::clock(1);
    input.extend(whole);
    let cut = listing(&input);
    assert_eq!(cut.lines().count(), 1 + 1 + 32_765 + 1);
    assert!(cut.ends_with("\n32765 2 ok\n32766 2 refused 2\n"));
}
