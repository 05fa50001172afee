//! The index of an SRTP packet (document 02, order 11) by two rules that share nothing: the nearest index, in whole
//! numbers without an end; and RFC 3711, appendix A and section 3.3.1, as they stand, modulo 2^32.

use crate::paper::{Answer, Why};

/// All that is said of a packet.
#[derive(Clone, Copy, PartialEq, Eq, Debug)]
pub struct Index {
    /// 0, or the refusal.
    pub estimate: Answer,
    /// The index; 0 where there is none.
    pub number: u64,
    /// What is kept once the packet has been accepted.
    pub roc: u32,
    pub highest: u32,
}

/// "the index with that sequence number nearest to 65,536 times ROC plus the highest number seen"
///
/// Of the nearest the first is taken, so a tie goes to the ROC itself. By appendix A it does: one less is taken where
/// SEQ - s_l > 32,768, one more where s_l - 32,768 > SEQ. With 32,768 for the difference, where the index under the
/// ROC and that under its neighbour are as near, neither is.
pub fn nearest(roc: u32, highest: u16, sequence: u16) -> Index {
    let at = |roc: i64, number: u16| 65_536 * roc + number as i64;
    let same = roc as i64;
    let seen = at(same, highest);
    let tried = [same, same - 1, same + 1].map(|roc| at(roc, sequence));
    let index = tried.into_iter().min_by_key(|index| (index - seen).abs()).unwrap();
    let refusal = match index {
        ..=-1 => Some(31),
        0x1_0000_0000_0000.. => Some(32),
        _ => None,
    };
    // "exactly when its index is higher"
    let kept = if refusal.is_none() && index > seen { index } else { seen };
    Index {
        estimate: refusal.map_or(Answer::Value(0), Answer::Refused),
        number: if refusal.is_none() { index as u64 } else { 0 },
        roc: (kept / 65_536) as u32,
        highest: (kept % 65_536) as u32,
    }
}

/// RFC 3711, with its names, and the refusals of order 11.
pub fn appendix_a(roc: u32, s_l: u16, seq: u16) -> Index {
    let v = guessed(roc, s_l as i32, seq as i32);
    let refused = |number| Index { estimate: Answer::Refused(number), number: 0, roc, highest: s_l.into() };
    match (roc, v) {
        // "At ROC 0 one less is 4,294,967,295, and that packet is refused with 31"
        (0, 4_294_967_295) => refused(31),
        // "At ROC 4,294,967,295 one more is refused with 32"
        (4_294_967_295, 0) => refused(32),
        _ => {
            let (roc, s_l) = updated(roc, s_l, v, seq);
            let number = (v as u64) << 16 | seq as u64;
            Index { estimate: Answer::Value(0), number, roc, highest: s_l.into() }
        }
    }
}

/// Appendix A: "signed arithmetic".
fn guessed(roc: u32, s_l: i32, seq: i32) -> u32 {
    if s_l < 32_768 {
        if seq - s_l > 32_768 {
            return roc.wrapping_sub(1);
        }
    } else if s_l - 32_768 > seq {
        return roc.wrapping_add(1);
    }
    roc
}

/// Section 3.3.1, the three cases of the last paragraph: the ROC and s_l after a packet that was authenticated.
fn updated(roc: u32, s_l: u16, v: u32, seq: u16) -> (u32, u16) {
    if v == roc.wrapping_sub(1) {
        (roc, s_l)
    } else if v == roc {
        (roc, s_l.max(seq))
    } else {
        (v, seq)
    }
}

/// The reason, by how far the sequence number is from the highest one, and beside which end of all indices.
pub fn why(roc: u32, highest: u16, sequence: u16, said: &Index) -> Why {
    let away = sequence as i32 - highest as i32;
    match (said.estimate, away) {
        (Answer::Refused(31), 32_769) => Why::IndexNotYetByOne,
        (Answer::Refused(31), _) => Why::IndexNotYet,
        (Answer::Refused(_), -32_769) => Why::IndexSpentByOne,
        (Answer::Refused(_), _) => Why::IndexSpent,
        (_, 32_768) if roc == 0 => Why::IndexTieAboveAtFirstRoc,
        (_, 32_768) => Why::IndexTieAbove,
        (_, -32_768) if roc == u32::MAX => Why::IndexTieBelowAtLastRoc,
        (_, -32_768) => Why::IndexTieBelow,
        (_, 32_769..) if roc == 1 => Why::IndexOneLessIsFirstRoc,
        (_, 32_769) => Why::IndexOneLessByOne,
        (_, 32_769..) => Why::IndexOneLess,
        (_, ..=-32_769) if roc == u32::MAX - 1 => Why::IndexOneMoreIsLastRoc,
        (_, -32_769) => Why::IndexOneMoreByOne,
        (_, ..=-32_769) => Why::IndexOneMore,
        _ => of_the_same(away, said.number),
    }
}

/// The reason of a packet under the ROC itself, not as near to another.
fn of_the_same(away: i32, number: u64) -> Why {
    match (number, away) {
        (0, _) => Why::IndexFirst,
        (0xFFFF_FFFF_FFFF, _) => Why::IndexLast,
        (_, 0) => Why::IndexSameAgain,
        (_, 32_767) => Why::IndexSameFarAbove,
        (_, -32_767) => Why::IndexSameFarBelow,
        (_, 1..) => Why::IndexSameMoved,
        _ => Why::IndexSameKept,
    }
}
