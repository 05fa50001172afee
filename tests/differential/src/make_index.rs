//! Makes packets of a stream: beside the first ROC and the last, and with sequence numbers half-way from the highest
//! one and beside it.

use crate::case::Case;
use crate::random::Random;

pub fn case(random: &mut Random) -> Case {
    let highest = number(random);
    Case::Index { roc: roc(random), highest, sequence: sequence(random, highest) }
}

fn roc(random: &mut Random) -> u32 {
    let any = random.next() as u32;
    match random.below(6) {
        0..=1 => random.pick(&[0, 0, 1, 1, 2]),
        2..=3 => u32::MAX - random.pick(&[0, 0, 1, 1, 2]),
        // Around a power of two.
        4 => (1u32 << random.below(32)).wrapping_add(random.pick(&[u32::MAX, 0, 1])),
        _ => any,
    }
}

/// Any, or one beside an end or beside the middle.
fn number(random: &mut Random) -> u16 {
    let beside = random.pick(&[0u16, 0, 32_768, 65_535, 65_535]);
    match random.once_in(2) {
        true => random.next() as u16,
        false => beside.wrapping_add(random.pick(&[65_533, 65_534, 65_535, 0, 0, 1, 2, 3])),
    }
}

fn sequence(random: &mut Random, highest: u16) -> u16 {
    let half = random.pick(&[32_766, 32_767, 32_767, 32_768, 32_768, 32_769, 32_769, 32_770]);
    match random.below(6) {
        0..=1 => highest.wrapping_add(half),
        2 => highest.wrapping_add(random.pick(&[65_534, 65_535, 0, 0, 1, 2])),
        3 => number(random),
        _ => random.next() as u16,
    }
}
