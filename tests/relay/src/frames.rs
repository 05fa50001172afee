//! One request frame, without its two octets of length, and its answer.

use crate::answer::Answer;
use crate::refusals::Refusals;
use crate::table::{Reply, Table};

pub const FRAME_LIMIT: usize = 4100;

fn own(answer: Answer) -> Reply {
    Reply { answer, applying: Refusals::default() }
}

fn endpoint(octets: &[u8]) -> u32 {
    octets[..4].iter().fold(0, |number, &octet| number << 8 | u32::from(octet))
}

pub fn respond(table: &mut Table, frame: &[u8]) -> Reply {
    if frame.len() > FRAME_LIMIT {
        return own(Answer::AboveLimit);
    }
    let Some((&kind, rest)) = frame.split_first() else {
        return own(Answer::WrongLength);
    };
    match (kind, rest.len()) {
        (2 | 3 | 7, 0..=3) | (7, 5..) | (6 | 8, 1..) => own(Answer::WrongLength),
        (1, _) => table.start(rest),
        (2, _) => table.open(&rest[4..], endpoint(rest)),
        (3, _) => table.booth(endpoint(rest), &rest[4..]),
        (4, _) => table.tunnel(rest),
        (5, _) => table.close(rest),
        (6, _) => table.end(),
        (7, _) => table.look(endpoint(rest)),
        (8, _) => table.page(),
        _ => own(Answer::UnknownKind),
    }
}
