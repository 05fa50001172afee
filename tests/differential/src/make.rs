//! Makes cases: random, laid out by the papers, damaged, and at the limits.

use crate::case::Case;
use crate::make_index;
use crate::make_keywrap;
use crate::make_page;
use crate::random::Random;

pub fn case(random: &mut Random) -> Case {
    // A page has more answers than the others, so there are fewer of them.
    if random.once_in(80) {
        return make_page::page(random);
    }
    // A key wrap takes longer than the others.
    if random.once_in(100) {
        return make_keywrap::case(random);
    }
    // An index has three numbers and no octets, so fewer of them are enough.
    if random.once_in(9) {
        return make_index::case(random);
    }
    match random.below(20) {
        0 => Case::Sort { packet: packet(random) },
        1..=9 => Case::Read { octets: octets(random), ask: ask(random) },
        10..=13 => Case::Tag { packet: tagged(random), ask: ask(random) },
        14 => supported_profiles(random),
        15 => unsupported_version(random),
        16..=17 => media_keys(random),
        18 => tunneled_dtls(random),
        _ => endpoint_disconnect(random),
    }
}

/// A field number that nothing has: one whose low bits are those of a field that is there, or any.
fn ask(random: &mut Random) -> u32 {
    let known = random.pick(&[1, 2, 3, 4, 5, 6, 7, 8, 16, 17]);
    match random.below(6) {
        0 => known + 256,
        1 => known + 65_536,
        2 => known + 0x8000_0000,
        3 => u32::MAX - known,
        4 => random.within(19, 255) as u32,
        _ => random.next() as u32 | 32,
    }
}

fn packet(random: &mut Random) -> Vec<u8> {
    let n = random.pick(&[0, 1, 1, 2, 3, 12, 40, 1500]);
    let mut packet = random.octets(n);
    if n > 0 && random.once_in(2) {
        // Both sides of every limit.
        packet[0] = random.pick(&[0, 3, 4, 15, 16, 19, 20, 63, 64, 79, 80, 127, 128, 191, 192, 255]);
    }
    packet
}

// ---------------------------------------------------------------- messages to be read

/// Octets being laid out, and where their length octets stand.
struct Layout {
    octets: Vec<u8>,
    lengths: Vec<usize>,
}

impl Layout {
    fn random(&mut self, random: &mut Random, n: usize) {
        self.octets.extend(random.octets(n));
    }

    /// A length of `width` octets, and that many random octets.
    fn vector(&mut self, random: &mut Random, width: usize, n: usize) {
        for i in (0..width).rev() {
            self.lengths.push(self.octets.len());
            self.octets.push((n >> (8 * i)) as u8);
        }
        self.random(random, n);
    }

    /// Makes the length of the body fit what stands there.
    fn close(&mut self) {
        if self.octets.len() >= 3 {
            let body = self.octets.len() - 3;
            self.octets[1] = (body >> 8) as u8;
            self.octets[2] = body as u8;
        }
    }
}

fn octets(random: &mut Random) -> Vec<u8> {
    if random.once_in(8) {
        return noise(random);
    }
    let mut layout = message(random);
    layout.close();
    for _ in 0..random.pick(&[0, 0, 1, 1, 2]) {
        damage(random, &mut layout);
    }
    if random.once_in(3) {
        let behind = random.pick(&[1, 2, 3, 19, 40]);
        layout.random(random, behind);
    }
    layout.octets
}

/// Random octets with a type and a length that have a chance.
fn noise(random: &mut Random) -> Vec<u8> {
    let n = random.below(48);
    let mut octets = random.octets(n);
    if n > 0 {
        octets[0] = random.pick(&[0, 1, 2, 3, 4, 5, 6, 255]);
    }
    if n > 1 && random.once_in(2) {
        octets[1] = 0;
    }
    if n > 2 && random.once_in(2) {
        octets[2] = random.below(n + 1) as u8;
    }
    octets
}

fn message(random: &mut Random) -> Layout {
    let kind = random.pick(&[0, 1, 1, 2, 3, 3, 3, 4, 4, 5, 6, 7, 128, 255]);
    let mut layout = Layout { octets: vec![kind, 0, 0], lengths: vec![1, 2] };
    match kind {
        1 => {
            layout.random(random, 1);
            let n = list_length(random);
            layout.vector(random, 2, n);
        }
        2 => {
            let n = random.pick(&[0, 1, 1, 2, 5, 40, 4095, 4096, 4097]);
            layout.random(random, n);
        }
        3 => {
            layout.random(random, 16 + 2);
            let mki = random.pick(&[0, 0, 1, 4, 16, 17, 255]);
            layout.vector(random, 1, mki);
            for _ in 0..4 {
                let n = key_length(random);
                layout.vector(random, 1, n);
            }
        }
        4 => {
            layout.random(random, 16);
            let n = dtls_length(random);
            layout.vector(random, 2, n);
        }
        5 => layout.random(random, 16),
        _ => {
            let n = random.pick(&[0, 0, 1, 16, 40, 4096]);
            layout.random(random, n);
        }
    }
    layout
}

fn list_length(random: &mut Random) -> usize {
    match random.below(40) {
        0 => random.within(4090, 4098),
        1..=4 => random.below(4),
        _ => 2 * random.within(1, 20),
    }
}

fn key_length(random: &mut Random) -> usize {
    match random.below(40) {
        0 => 0,
        1..=4 => random.pick(&[1, 2, 254, 255]),
        _ => random.pick(&[12, 14, 16, 32]),
    }
}

fn dtls_length(random: &mut Random) -> usize {
    match random.below(40) {
        0 => random.within(4076, 4082),
        1..=3 => 0,
        4..=7 => 1,
        _ => random.within(1, 200),
    }
}

/// One thing that goes wrong with a message.
fn damage(random: &mut Random, layout: &mut Layout) {
    let n = layout.octets.len();
    let at = random.below(n.max(1));
    if n < 3 {
        return;
    }
    match random.below(9) {
        0 => layout.octets[at] = random.octet(),
        1 => {
            // A length one too small or one too large.
            let at = random.pick(&layout.lengths).min(n - 1);
            layout.octets[at] = layout.octets[at].wrapping_add(random.pick(&[1, 255]));
        }
        2 => {
            let at = random.pick(&layout.lengths).min(n - 1);
            layout.octets[at] = random.pick(&[0, 1, 15, 16, 17, 127, 128, 255]);
        }
        3 => drop(layout.octets.remove(at)),
        4 => layout.octets.insert(at, random.octet()),
        5 => layout.octets.truncate(at),
        6 => layout.octets.truncate(n - 1),
        7 => {
            // More or less of the body than its fields, and a length that fits it.
            match random.once_in(2) {
                true => layout.octets.truncate(n - random.within(1, 2)),
                false => layout.random(random, 1),
            }
            layout.close();
        }
        _ => {
            let length = random.pick(&[0, 1, 4095, 4096, 4097, 5000, 65_535]);
            layout.octets[1] = (length >> 8) as u8;
            layout.octets[2] = length as u8;
        }
    }
}

// ---------------------------------------------------------------- packets with a tag

fn tagged(random: &mut Random) -> Vec<u8> {
    let kind = match random.below(8) {
        0 => 0,
        1 => 1,
        2..=4 => 2,
        5 => 3,
        _ => random.octet(),
    };
    let length = match random.below(8) {
        0 => random.pick(&[0, 3, 4, 5, 7, 8, 9]),
        1 => random.pick(&[257, 258, 259]),
        2 => random.pick(&[1026, 1027, 1028]),
        3 => random.next() as u16 as usize,
        _ => random.within(4, 100),
    };
    let n = match random.below(8) {
        0 => random.below(12),
        1 => length.clamp(1, 1100) - 1,
        2 => length.min(1100),
        3 => length.min(1100) + 1,
        _ => (length + random.within(0, 60)).min(1200),
    };
    let mut packet = random.octets(n);
    if let Some(last) = packet.last_mut() {
        *last = kind;
    }
    if n > 2 {
        packet[n - 3..n - 1].copy_from_slice(&(length as u16).to_be_bytes());
    }
    packet
}

// ---------------------------------------------------------------- messages to be written

/// The room for an output that needs `need` octets.
pub fn room(random: &mut Random, need: usize) -> usize {
    match random.below(8) {
        0 => need.saturating_sub(1),
        1 => random.below(need.min(64) + 1),
        2..=4 => need,
        5 => need + 1,
        _ => need + random.below(64),
    }
}

fn identifier(random: &mut Random) -> Vec<u8> {
    let n = match random.below(10) {
        0 => random.pick(&[0, 1, 4, 15, 17, 32, 272]),
        _ => 16,
    };
    random.octets(n)
}

fn supported_profiles(random: &mut Random) -> Case {
    let n = match random.below(200) {
        0..=3 => random.within(65_530, 65_538),
        4..=6 => random.within(4091, 4096),
        7..=20 => random.below(6),
        _ => random.within(1, 40),
    };
    let list = random.octets(n);
    Case::SupportedProfiles { version: random.octet(), list, room: room(random, 6 + n) }
}

fn unsupported_version(random: &mut Random) -> Case {
    Case::UnsupportedVersion { version: random.octet(), room: random.below(8) }
}

fn media_keys(random: &mut Random) -> Case {
    let id = identifier(random);
    let lengths: [usize; 5] = std::array::from_fn(|i| match random.below(30) {
        0 => random.pick(&[0, 254, 255, 256, 257, 512]),
        1..=4 => 1,
        5..=9 if i == 0 => 0,
        _ => random.pick(&[2, 12, 16, 32]),
    });
    let need = 3 + 16 + 2 + 5 + lengths.iter().sum::<usize>();
    let fields = lengths.map(|n| random.octets(n));
    Case::MediaKeys { id, profile: random.next() as u16, fields, room: room(random, need) }
}

fn tunneled_dtls(random: &mut Random) -> Case {
    let id = identifier(random);
    let n = match random.below(200) {
        0 => random.within(65_534, 65_538),
        1..=4 => random.within(4076, 4081),
        5..=14 => 0,
        _ => random.within(1, 150),
    };
    let dtls = random.octets(n);
    Case::TunneledDtls { id, dtls, room: room(random, 21 + n) }
}

fn endpoint_disconnect(random: &mut Random) -> Case {
    let id = identifier(random);
    Case::EndpointDisconnect { id, room: room(random, 19) }
}
