//! The answers and their frames.

pub enum Answer {
    More,
    Refused {
        number: u8,
        taken: usize,
    },
    Written(Vec<u8>),
    Placed(usize),
    Ended,
    Found(Vec<u8>),
    /// `again`: the record was keyed before. It is not part of the frame.
    Stored {
        taken: usize,
        endpoint: u32,
        again: bool,
    },
    Delivery {
        taken: usize,
        endpoint: u32,
        octets: Vec<u8>,
    },
    Removed {
        taken: usize,
        endpoint: u32,
    },
    Version {
        taken: usize,
        version: u8,
    },
    Page(Vec<u8>),
    UnknownKind,
    AboveLimit,
    WrongLength,
}

impl Answer {
    pub fn kind(&self) -> u8 {
        match self {
            Answer::More => 0,
            Answer::Refused { .. } => 1,
            Answer::Written(_) => 2,
            Answer::Placed(_) => 3,
            Answer::Ended => 4,
            Answer::Found(_) => 5,
            Answer::Stored { .. } => 6,
            Answer::Delivery { .. } => 7,
            Answer::Removed { .. } => 8,
            Answer::Version { .. } => 9,
            Answer::Page(_) => 10,
            Answer::UnknownKind => 128,
            Answer::AboveLimit => 129,
            Answer::WrongLength => 130,
        }
    }

    /// Appends the frame: length, kind, and what stands behind the kind.
    pub fn frame(&self, out: &mut Vec<u8>) {
        let at = out.len();
        out.extend_from_slice(&[0, 0, self.kind()]);
        match self {
            Answer::Refused { number, taken } => {
                out.push(*number);
                put16(out, *taken);
            }
            Answer::Written(octets) | Answer::Found(octets) | Answer::Page(octets) => out.extend_from_slice(octets),
            Answer::Placed(number) => put16(out, *number),
            Answer::Stored { taken, endpoint, .. } | Answer::Removed { taken, endpoint } => {
                put16(out, *taken);
                out.extend_from_slice(&endpoint.to_be_bytes());
            }
            Answer::Delivery { taken, endpoint, octets } => {
                put16(out, *taken);
                out.extend_from_slice(&endpoint.to_be_bytes());
                out.extend_from_slice(octets);
            }
            Answer::Version { taken, version } => {
                put16(out, *taken);
                out.push(*version);
            }
            _ => {}
        }
        let length = (out.len() - at - 2) as u16;
        out[at..at + 2].copy_from_slice(&length.to_be_bytes());
    }
}

pub fn put16(out: &mut Vec<u8>, number: usize) {
    out.extend_from_slice(&(number as u16).to_be_bytes());
}
