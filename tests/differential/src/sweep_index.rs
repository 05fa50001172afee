//! The index of a packet without chance: every sequence number with those highest ones at which a comparison turns,
//! and every highest one with those sequence numbers at which it turns; under the first ROCs, the last, and those at
//! which half of the bits, or the sign, change.

use crate::case::Case;
use crate::compare::Bench;
use crate::sweep::{run, Swept};

const ROCS: [u32; 11] =
    [0, 1, 2, 65_535, 65_536, (1 << 31) - 1, 1 << 31, (1 << 31) + 1, u32::MAX - 2, u32::MAX - 1, u32::MAX];

const HIGHEST: [u16; 18] = [
    0, 1, 2, 255, 256, 16_384, 32_765, 32_766, 32_767, 32_768, 32_769, 32_770, 32_771, 49_152, 65_280, 65_533, 65_534,
    65_535,
];

/// From the highest number to the sequence number, modulo 65,536: beside it, and half-way.
const AWAY: [u16; 14] = [0, 1, 2, 256, 16_384, 32_766, 32_767, 32_768, 32_769, 32_770, 49_152, 65_280, 65_534, 65_535];

pub fn all(bench: &mut Bench) -> Swept {
    for roc in ROCS {
        for highest in HIGHEST {
            for sequence in 0..=65_535 {
                run(bench, Case::Index { roc, highest, sequence })?;
            }
        }
        for highest in 0..=65_535u16 {
            for away in AWAY {
                run(bench, Case::Index { roc, highest, sequence: highest.wrapping_add(away) })?;
            }
        }
    }
    Ok(())
}
