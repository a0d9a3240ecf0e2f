//! The floor and the ceiling that the library gives for a security of lent words
//! (paper 02, request 3): the paper's figure, every edge of the prior close and of
//! the figures, and words that no range can be taken from.

use std::ops::RangeInclusive;

use guvontsira::library;
use second::ladder::LAST_PRICE;
use second::range;
use second::state::word_count;

use crate::comparison::Lent;
use crate::figures::any_figures;
use crate::layout::{FIGURES, PRIOR_CLOSE, fresh, security_start};
use crate::prices::{middle, prior_close};
use crate::program::Program;

const FREE: usize = 1;

pub const CLOSES: [u32; 22] = [
    0, 1, 2, 50, 98, 99, 1_00, 1_01, 1_54, 1_99, 2_00, 2_01, 2_87, 24_99, 65_60, 150_00, 399_99,
    400_00, 7_692_307, 7_692_308, 9_999_999, LAST_PRICE,
];
pub const SUBSCRIPTIONS: [u32; 7] = [0, 1, 10_00, 65_60, LAST_PRICE, u32::MAX - 1, u32::MAX];
pub const SHARES: [u32; 6] = [0, 1, 2, 3, 65_534, 65_535];

/// Prior close, dividend, subscription, old and new shares; floor and ceiling.
const EXPECTED: [([u32; 5], [u32; 2]); 11] = [
    ([150_00, 0, 10_00, 2, 3], [46_25, 85_75]),
    ([150_00, 0, 0, 0, 0], [105_00, 195_00]),
    ([65_60, 0, 0, 0, 0], [46_00, 85_25]),
    ([99, 0, 0, 0, 0], [1, 1_98]),
    ([99, 98, 0, 1, 65_535], [1, 1_98]),
    ([1_00, 0, 0, 0, 0], [70, 1_30]),
    ([50_00, 0, 90_00, 1, 1], [35_00, 65_00]),
    ([50_00, 49_99, u32::MAX, 65_535, 65_535], [35_00, 65_00]),
    ([50_00, 49_99, 0, 1, 65_535], [1, 1]),
    ([1_00, 97, 0, 1, 1], [2, 1]),
    ([LAST_PRICE, 0, 0, 0, 0], [7_000_000, LAST_PRICE]),
];

/// So many closes or random securities are one case.
const PART: usize = 1_024;
const RANDOM_PARTS: usize = 100;

pub fn run(program: &mut Program) {
    of_the_paper(program);
    every_edge(program);
    closes(program);
    at_random(program);
    no_range(program);
}

/// A state with these securities: free flag, prior close and figures of each.
fn state(securities: &[(u32, [u32; 5])]) -> Vec<u32> {
    let mut words = fresh(1, securities.len() as u32);
    for (place, (free, [close, figures @ ..])) in securities.iter().enumerate() {
        let record = &mut words[security_start(place)..];
        record[FREE] = *free;
        record[PRIOR_CLOSE] = *close;
        record[FIGURES..][..4].copy_from_slice(figures);
    }
    words
}

fn of_the_paper(program: &mut Program) {
    for (security, expected) in EXPECTED {
        let words = state(&[(0, security)]);
        let given = [library::floor(&words, 0), library::ceiling(&words, 0)];
        program.holds(format_args!("{security:?}"), given == expected, || {
            format!("the gate says {given:?}, the case {expected:?}")
        });
        compare(program, &format!("{security:?}"), &words, 0..=1);
    }
}

/// Behind the last security stands the first desk, whose words can read as a
/// sound security: one order accepted (lot 1), in an open row (prior close 1).
fn behind_the_last_security(program: &mut Program) {
    let mut words = state(&[(0, [150_00, 0, 0, 0, 0])]);
    let desk = security_start(1);
    words[desk..][..11].copy_from_slice(&[1, 0, 0, 1, 1, 0, 0, 0, 0, 50_00, 100]);
    nothing(program, "a desk that reads as a security", &words, 1);
    let moved = [
        &words[..security_start(0)],
        &words[desk..][..17],
        &words[desk..],
    ]
    .concat();
    compare(program, "the same words as a security", &moved, 0..=1);
}

/// Every choice of one number with every choice of the others, those that are not
/// sound too.
fn every_edge(program: &mut Program) {
    for close in CLOSES {
        let mut securities = Vec::new();
        for dividend in [
            0,
            1,
            close.saturating_sub(3),
            close.saturating_sub(1),
            close,
        ] {
            for subscription in SUBSCRIPTIONS.into_iter().chain([close, close + 1]) {
                for old in SHARES {
                    let each = SHARES.map(|new| [close, dividend, subscription, old, new]);
                    securities.extend(each.map(|words| (u32::from(old == 3), words)));
                }
            }
        }
        parts(program, &format!("close {close}"), &securities);
    }
}

/// Every close up to 600.00 and many above, alone and with figures.
fn closes(program: &mut Program) {
    let closes = (0..=600_00).chain((600_01..=LAST_PRICE + 2).step_by(499));
    let alone: Vec<_> = closes.map(|close| (0, [close, 0, 0, 0, 0])).collect();
    parts(program, "closes", &alone);
    let with_figures = |&(free, [close, ..]): &(u32, [u32; 5])| {
        let dividend = close / 7;
        (free, [close, dividend, close / 3, 7, 1 + close % 5])
    };
    let adjusted: Vec<_> = alone.iter().map(with_figures).collect();
    parts(program, "closes with figures", &adjusted);
}

fn at_random(program: &mut Program) {
    let mut random = program.random();
    let securities: Vec<_> = (0..RANDOM_PARTS * PART)
        .map(|_| {
            let traded = middle(&mut random);
            let close = match random.below(4) {
                0 => random.below(2_00),
                1 => random.below(LAST_PRICE + 2),
                _ => prior_close(&mut random, traded),
            };
            let figures = any_figures(&mut random, 0, close);
            let words = [
                close,
                figures.dividend,
                figures.subscription,
                figures.old.into(),
                figures.new.into(),
            ];
            (u32::from(random.once_in(16)), words)
        })
        .collect();
    parts(program, "at random", &securities);
}

fn parts(program: &mut Program, name: &str, securities: &[(u32, [u32; 5])]) {
    for part in securities.chunks(PART) {
        let count = part.len() as u32;
        compare(program, name, &state(part), 0..=count);
    }
}

/// No words, words that do not fit, damaged headers, and securities beyond all.
fn no_range(program: &mut Program) {
    behind_the_last_security(program);
    let sizes = [(1, 1), (2, 3), (256, 1_024)];
    for (customers, securities) in sizes {
        let mut words = fresh(customers, securities);
        for security in 0..securities as usize {
            words[security_start(security) + PRIOR_CLOSE] = 50_00;
        }
        let name = format!("{customers} customers, {securities} securities");
        let far = [
            securities,
            securities + 1,
            65_535,
            65_536,
            1 << 31,
            u32::MAX,
        ];
        for security in far {
            compare(program, &name, &words, security..=security);
            nothing(program, &name, &words, security);
        }
        let count = word_count(customers, securities).expect("counts are in range");
        for length in [0, 1, 2, 3, 4, 21, 312, count - 1] {
            nothing(program, &name, &words[..length.min(count - 1)], 0);
        }
        let longer = [&words[..], &[0]].concat();
        nothing(program, &name, &longer, 0);
        for (place, values) in [
            (0, &[0, customers + 1, 257, u32::MAX][..]),
            (1, &[0, securities + 1, 1_025, u32::MAX]),
            (2, &[86_400_000, u32::MAX]),
            (3, &[5, u32::MAX]),
        ] {
            for &value in values {
                let mut damaged = words.clone();
                damaged[place] = value;
                nothing(program, &name, &damaged, 0);
            }
        }
        compare(program, &name, &words, 0..=securities);
    }
}

/// Both say that there is no range.
fn nothing(program: &mut Program, name: &str, words: &[u32], security: u32) {
    compare(program, name, words, security..=security);
    let given = [
        library::floor(words, security),
        library::ceiling(words, security),
    ];
    let count = words.len();
    let name = format_args!("{name}, {count} words, no range of {security}");
    program.holds(name, given == [0; 2], || format!("the gate says {given:?}"));
}

/// The ranges of these securities, by the library and by the second
/// implementation, as one case. The library only reads.
pub fn compare(
    program: &mut Program,
    name: &str,
    words: &[u32],
    mut securities: RangeInclusive<u32>,
) {
    let mut lent = Lent::default();
    lent.set(words);
    let gate =
        |security| [library::floor, library::ceiling].map(|edge| edge(lent.words(), security));
    let second = |security| [range::floor, range::ceiling].map(|edge| edge(words, security));
    let unlike = securities.find(|&security| gate(security) != second(security));
    let is_kept = lent.words() == words && lent.is_guard_whole();
    let holds = unlike.is_none() && is_kept;
    program.holds(format_args!("{name}, ranges"), holds, || {
        let Some(security) = unlike else {
            return "a word was written".into();
        };
        let record = words.get(security_start(security as usize)..);
        let record = record.map(|record| &record[..record.len().min(17)]);
        let (gate, second) = (gate(security), second(security));
        format!(
            "of security {security} ({record:?}) the gate says {gate:?}, \
             the second implementation {second:?}"
        )
    });
}
