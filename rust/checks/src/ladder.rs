//! Every price and every position, and numbers far from both.

use guvontsira::library;
use second::ladder;

use crate::program::Program;

const LAST_PRICE_TRIED: u32 = 10_000_400;
const LAST_POSITION_TRIED: u32 = 51_200;
/// So many numbers are one case.
const PART: usize = 100_000;
const RANDOM_PARTS: usize = 20;

pub fn run(program: &mut Program) {
    let all: Vec<u32> = (0..=LAST_PRICE_TRIED).collect();
    for part in all.chunks(PART) {
        positions(program, part);
    }
    let all: Vec<u32> = (0..=LAST_POSITION_TRIED).collect();
    for part in all.chunks(PART) {
        prices(program, part);
    }
    let mut random = program.random();
    for _ in 0..RANDOM_PARTS {
        // Small ones as well: a shift leaves numbers of every length.
        let numbers: Vec<u32> = (0..PART)
            .map(|_| random.word() >> random.below(32))
            .chain([u32::MAX, u32::MAX - 1, 1 << 31, (1 << 31) - 1])
            .collect();
        positions(program, &numbers);
        prices(program, &numbers);
    }
}

/// Whether a price is legal is compared with its position, which is 0 where it
/// is not.
fn positions(program: &mut Program, numbers: &[u32]) {
    compare(program, "positions", numbers, library::position, |price| {
        ladder::position(price).unwrap_or(0)
    });
    let name = "lower positions";
    compare(program, name, numbers, library::lower_position, |price| {
        ladder::nearest(price).map_or(0, |nearest| nearest.lower)
    });
    let name = "upper positions";
    compare(program, name, numbers, library::upper_position, |price| {
        ladder::nearest(price).map_or(0, |nearest| nearest.upper)
    });
}

fn prices(program: &mut Program, numbers: &[u32]) {
    compare(program, "prices", numbers, library::price, |position| {
        ladder::price(position).unwrap_or(0)
    });
}

fn compare(
    program: &mut Program,
    name: &str,
    numbers: &[u32],
    gate: fn(u32) -> u32,
    second: fn(u32) -> u32,
) {
    let unlike = numbers.iter().find(|&&n| gate(n) != second(n));
    program.holds(
        format_args!("{name}, {} numbers from {}", numbers.len(), numbers[0]),
        unlike.is_none(),
        || {
            let number = unlike.copied().unwrap_or_default();
            let (gate, second) = (gate(number), second(number));
            format!("of {number} the gate says {gate}, the second implementation {second}")
        },
    );
}
