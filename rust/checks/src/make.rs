//! Fresh states: right sizes, wrong sizes, and what they leave in the words.

use guvontsira::library;
use second::gate;
use second::state::word_count;

use crate::comparison::{Lent, number};
use crate::program::Program;
use crate::report::first_wrong;

const CUSTOMERS: [u32; 9] = [0, 1, 2, 17, 255, 256, 257, 1 << 16, u32::MAX];
const SECURITIES: [u32; 9] = [0, 1, 2, 291, 1_023, 1_024, 1_025, 1 << 16, u32::MAX];

pub fn run(program: &mut Program) {
    for customers in CUSTOMERS {
        for securities in SECURITIES {
            for length in lengths(customers, securities) {
                one(program, customers, securities, length);
            }
        }
    }
    let (customers, securities) = wrapping_counts();
    one(program, customers, securities, 4 + 17 + 291);
    let mut random = program.random();
    for _ in 0..200 {
        let (customers, securities) = (1 + random.below(256), 1 + random.below(1_024));
        for length in lengths(customers, securities) {
            one(program, customers, securities, length);
        }
    }
}

/// The right count of words where it is not beyond all bounds, and wrong ones.
fn lengths(customers: u32, securities: u32) -> Vec<usize> {
    let right = 4 + 17 * u64::from(securities) + 291 * u64::from(customers);
    let mut lengths = vec![0, 1, 3, 4, 4 + 17 + 291];
    if right < 1 << 20 {
        let right = right as usize;
        lengths.extend([right - 1, right, right + 1, right + 17, right + 291]);
    }
    lengths
}

/// Two customers and so many securities that 4 + 17 S + 291 C is right for one
/// of each where the sum wraps at 32 bits.
fn wrapping_counts() -> (u32, u32) {
    const INVERSE_OF_17: u32 = 4_042_322_161;
    let customers = 2;
    let rest = (17 + 291_u32).wrapping_sub(291 * customers);
    (customers, rest.wrapping_mul(INVERSE_OF_17))
}

fn one(program: &mut Program, customers: u32, securities: u32, length: usize) {
    // Nothing of what stood there before may stay, nor decide anything.
    let before: Vec<u32> = (0..length as u32)
        .map(|word| word.wrapping_mul(0x9e37_79b9))
        .collect();
    let mut lent = Lent::default();
    lent.set(&before);
    let mut second = before.clone();
    let answer = library::make(lent.words_mut(), customers, securities);
    let expected = number(gate::fresh(&mut second, customers, securities));
    let is_right = word_count(customers, securities) == Some(length);
    let holds = answer == expected
        && answer == u32::from(!is_right)
        && lent.is_guard_whole()
        && lent.words() == second
        && (is_right || second == before);
    program.holds(
        format_args!("{customers} customers, {securities} securities, {length} words"),
        holds,
        || {
            let words = first_wrong(lent.words(), &second, |place| format!("word {place}"));
            format!("the gate answers {answer}, the second implementation {expected}\n{words}")
        },
    );
}
