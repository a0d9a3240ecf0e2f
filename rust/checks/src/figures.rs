//! Random figures of kind 9, on both sides of refusal 13 and of every base.

use second::event::Figures;

use crate::random::Random;

/// For a security with this prior close. Most are not refused where there is one.
pub fn any_figures(random: &mut Random, security: u16, close: u32) -> Figures {
    if random.once_in(16) {
        return one_and_a_half(random, security, close);
    }
    let [old, new] = shares(random);
    Figures {
        security,
        dividend: dividend(random, close),
        subscription: subscription(random, close),
        old,
        new,
    }
}

/// A base of 1.5 satang, which has its floor above its ceiling.
fn one_and_a_half(random: &mut Random, security: u16, close: u32) -> Figures {
    let shares = 1 + random.below(10) as u16;
    Figures {
        security,
        dividend: close.saturating_sub(3),
        subscription: 0,
        old: shares,
        new: shares,
    }
}

fn dividend(random: &mut Random, close: u32) -> u32 {
    match random.below(16) {
        0..=6 => 0,
        7..=11 => random.below(close / 8 + 1),
        12 | 13 => close.saturating_sub(1 + random.below(3)),
        14 => close.saturating_add(random.below(2)),
        _ if random.once_in(3) => random.word(),
        _ => 0,
    }
}

/// At the close the base is the close; above, the figures would raise it.
fn subscription(random: &mut Random, close: u32) -> u32 {
    match random.below(10) {
        0 | 1 => 0,
        2..=6 => random.below(close.saturating_add(1)),
        7 => close.saturating_sub(1) + random.below(3),
        8 => random.word() >> random.below(32),
        _ => u32::MAX,
    }
}

/// Old and new ones.
fn shares(random: &mut Random) -> [u16; 2] {
    match random.below(16) {
        0 => [0, random.below(3) as u16],
        1..=3 => [1 + random.below(10) as u16, 0],
        4..=10 => [1 + random.below(20) as u16, 1 + random.below(20) as u16],
        11 | 12 => [random.pick(&[1, u16::MAX]), random.pick(&[0, 1, u16::MAX])],
        _ => [random.word() as u16 | 1, random.word() as u16],
    }
}
