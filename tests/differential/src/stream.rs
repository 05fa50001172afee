//! Packets along a stream. Each has the index that its sender gave it, and the library is told its sequence number and
//! what it said to keep of the packets before. No packet is half-way or further from the highest before it, so
//! its index must be found again, without a rule to go by.

use crate::case::Case;
use crate::compare::Bench;
use crate::index::Index;
use crate::library;
use crate::paper::Answer;
use crate::random::Random;
use crate::stop;
use crate::sweep::Swept;

const STREAMS: u64 = 1000;
const PACKETS: u64 = 1000;
/// After the last index.
const END: i64 = 1 << 48;

/// Packets from before the first index, from after the last, and under the ROC before, the same and the next.
type Met = [u64; 5];

/// Ends the program where a kind of packet occurred less often than one in 20,000, as tally.rs does.
pub fn all(bench: &mut Bench, seed: u64) -> Swept {
    let mut random = Random::new(seed);
    let mut met = Met::default();
    for _ in 0..STREAMS {
        let begin = begin(&mut random);
        follow(bench, &mut random, begin, &mut met)?;
    }
    assert!(met.iter().all(|&n| n >= STREAMS * PACKETS / 20_000), "the streams did not reach enough: {met:?}");
    Ok(())
}

/// The index of the packet that a stream begins with: among the first, near the last, before the sequence numbers or
/// the low half of the ROC begin again, before the ROC's highest bit changes, and any.
fn begin(random: &mut Random) -> i64 {
    let before = random.below(1000) as i64;
    let any = random.next() as i64 & (END - 1);
    match random.below(8) {
        0 => before / 50,
        1..=2 => before,
        3 => END - 1 - 1000 * before,
        4 => ((any >> 16).max(1) << 16) - 1 - before,
        5 => ((any >> 32).max(1) << 32) - 1 - 100 * before,
        6 => END / 2 - 1 - 100 * before,
        _ => any,
    }
}

/// Half of the streams lose up to 32,766 packets at once; the others lose few, and few come late or twice.
fn follow(bench: &mut Bench, random: &mut Random, begin: i64, met: &mut Met) -> Swept {
    let far = random.once_in(2);
    let (mut roc, mut highest) = ((begin >> 16) as u32, begin as u16);
    let mut seen = begin;
    for _ in 0..PACKETS {
        let index = seen + step(random, far);
        let case = Case::Index { roc, highest, sequence: index as u16 };
        let at = stop::during(&case);
        let said = library::index(roc, highest, index as u16, 0);
        bench.index_said(said, &wanted(index, seen)).map_err(|d| (case.to_string(), d))?;
        drop(at);
        met[kind(index, seen)] += 1;
        (roc, highest) = (said[2] as u32, said[3] as u16);
        seen = (roc as i64) << 16 | highest as i64;
    }
    Ok(())
}

/// From the highest index so far to that of the next packet: less than 32,768, either way.
fn step(random: &mut Random, far: bool) -> i64 {
    let (late, lost) = if far { (32_767, 32_767) } else { (20, 200) };
    match random.below(16) {
        0 => 0,
        1..=2 => -(random.within(1, late) as i64),
        3..=4 => random.within(1, lost) as i64,
        5 if far => random.pick(&[-32_767, 32_767]),
        _ => 1,
    }
}

fn kind(index: i64, seen: i64) -> usize {
    match index {
        ..=-1 => 0,
        END.. => 1,
        _ => (3 + (index >> 16) - (seen >> 16)) as usize,
    }
}

/// What is to be said of the packet with this index. There is none below 0, and none from 2^48 on.
fn wanted(index: i64, seen: i64) -> Index {
    let (estimate, number, kept) = match index {
        ..=-1 => (Answer::Refused(31), 0, seen),
        END.. => (Answer::Refused(32), 0, seen),
        _ => (Answer::Value(0), index, seen.max(index)),
    };
    Index { estimate, number: number as u64, roc: (kept >> 16) as u32, highest: kept as u32 & 0xFFFF }
}
