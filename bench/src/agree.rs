//! Random lists of calls, given to every table: every answer and every lent octet must be the same.

use crate::calls::{Calls, Rust, RECORD};
use crate::scan::Scan;
use crate::sorted::Sorted;

/// The length of a full page.
const PAGE_LIMIT: usize = 153;

pub struct Random(pub u64);

impl Random {
    pub fn next(&mut self) -> u64 {
        self.0 = self.0.wrapping_add(0x9E37_79B9_7F4A_7C15);
        let mut z = self.0;
        z = (z ^ (z >> 30)).wrapping_mul(0xBF58_476D_1CE4_E5B9);
        z = (z ^ (z >> 27)).wrapping_mul(0x94D0_49BB_1331_11EB);
        z ^ (z >> 31)
    }
    pub fn below(&mut self, n: usize) -> usize {
        (self.next() % n as u64) as usize
    }
    pub fn octets(&mut self, n: usize) -> Vec<u8> {
        (0..n).map(|_| self.next() as u8).collect()
    }
}

pub fn identifier(i: usize) -> [u8; 16] {
    let mut r = Random(i as u64);
    let mut id = [0; 16];
    id[..8].copy_from_slice(&r.next().to_be_bytes());
    id[8..].copy_from_slice(&r.next().to_be_bytes());
    id
}

pub fn endpoint(i: usize) -> u32 {
    Random(!(i as u64)).next() as u32
}

pub fn message(kind: u8, body: &[u8]) -> Vec<u8> {
    let mut m = vec![kind];
    m.extend((body.len() as u16).to_be_bytes());
    m.extend(body);
    m
}

pub fn media_keys(identifier: &[u8], profile: u16, fields: [&[u8]; 5]) -> Vec<u8> {
    let mut body = identifier.to_vec();
    body.extend(profile.to_be_bytes());
    for field in fields {
        body.push(field.len() as u8);
        body.extend(field);
    }
    message(3, &body)
}

pub fn tunneled_dtls(identifier: &[u8], dtls: &[u8]) -> Vec<u8> {
    let mut body = identifier.to_vec();
    body.extend((dtls.len() as u16).to_be_bytes());
    body.extend(dtls);
    message(4, &body)
}

fn random_octets(r: &mut Random, id: &[u8]) -> Vec<u8> {
    let mut m = match r.below(24) {
        0..=9 => {
            let (profile, key) =
                [(9, 16), (10, 32), (9, 16), (10, 32), (9, 32), (7, 16)][r.below(6)];
            let lengths = [
                r.below(18),
                key + (r.below(30) == 0) as usize,
                key,
                r.below(34),
                1 + r.below(33),
            ];
            let fields = lengths.map(|n| r.octets(n));
            media_keys(id, profile, [0, 1, 2, 3, 4].map(|i: usize| &fields[i][..]))
        }
        10..=15 => {
            let n = if r.below(20) == 0 { 4078 } else { r.below(300) };
            let dtls = r.octets(n);
            tunneled_dtls(id, &dtls)
        }
        16..=20 => message(5, id),
        21 => message(1, &[0, 0, 2, 0, 9]),
        22 => message(r.below(8) as u8, &[0, 1][..r.below(3)]),
        _ => return r.octets(3),
    };
    if r.below(8) == 0 {
        m.truncate(r.below(m.len() + 1));
    }
    if r.below(12) == 0 {
        let i = r.below(m.len() + 1).min(m.len());
        if i < m.len() {
            m[i] ^= 1 << r.below(8);
        }
    }
    if r.below(4) == 0 {
        m.extend(r.octets(9));
    }
    m
}

/// A call by its number in `NAMES`, and what is given to it, each call taking what it wants.
struct Call {
    number: usize,
    identifier: Vec<u8>,
    endpoint: u32,
    octets: Vec<u8>,
    out: Vec<u8>,
}

/// The least and the greatest are among them: an index must not take what lies behind its entries for
/// one of them.
fn any_endpoint(i: usize) -> u32 {
    match i {
        0 => 0,
        1 => u32::MAX,
        _ => endpoint(i),
    }
}

fn random_list(r: &mut Random) -> Vec<u8> {
    let lists: [&[u8]; 6] = [
        &[0, 9],
        &[0, 10, 0, 9],
        &[0, 9, 0, 9],
        &[],
        &[0, 9, 0],
        &[0, 7],
    ];
    lists[r.below(12).saturating_sub(6)].to_vec()
}

fn random_packet(r: &mut Random) -> Vec<u8> {
    let n = if r.below(10) == 0 {
        4070 + r.below(20)
    } else {
        r.below(300)
    };
    let mut packet = r.octets(n);
    if n > 0 && r.below(8) != 0 {
        packet[0] = 20 + packet[0] % 44;
    }
    packet
}

fn random_stream(r: &mut Random, identifier: &[u8]) -> Vec<u8> {
    let mut s = random_octets(r, identifier);
    // Few versions, as each empties the table.
    if s.first() == Some(&2) && r.below(4) != 0 {
        s[0] = 5;
    }
    s
}

fn random_call(r: &mut Random, people: usize) -> Call {
    let who = r.below(people);
    let identifier = match r.below(50) {
        0 => r.octets(15),
        _ => identifier(who).to_vec(),
    };
    let endpoint = any_endpoint(match r.below(10) {
        0 => r.below(people),
        _ => who,
    });
    let number = match r.below(420) {
        0 => 5,
        1..=20 => 0,
        21..=200 => 1,
        201..=240 => 2,
        241..=320 => 3,
        321..=360 => 4,
        361..=399 => 6,
        _ => 7,
    };
    let room = match r.below(10) {
        0 => r.below(40),
        1..=4 if number == 7 => r.below(PAGE_LIMIT + 2),
        _ => 4200,
    };
    let out = r.octets(room);
    let octets = match number {
        0 => random_list(r),
        2 => random_packet(r),
        3 => random_stream(r, &identifier),
        _ => vec![],
    };
    Call {
        number,
        identifier,
        endpoint,
        octets,
        out,
    }
}

/// What a call answered, and all that was lent to it as it is behind the call.
struct Got {
    answer: u64,
    more: [u64; 3],
    record: [u8; RECORD],
    out: Vec<u8>,
}

fn give<T: Calls>(t: &mut T, call: &Call) -> Got {
    let (mut more, mut record, mut out) = ([7; 3], [7; RECORD], call.out.clone());
    let (id, ep, s) = (&call.identifier, call.endpoint, &call.octets);
    let answer = match call.number {
        0 => t.start(s, &mut out),
        1 => t.open(id, ep),
        2 => t.booth_packet(ep, s, &mut out),
        3 => t.tunnel_octets(s, &mut more),
        4 => t.close(id, &mut out),
        5 => t.end(),
        6 => t.look(ep, &mut record),
        _ => t.write_page(&mut out),
    };
    Got {
        answer,
        more,
        record,
        out,
    }
}

fn compare(number: usize, a: &Got, b: &Got) {
    assert_eq!(a.answer, b.answer, "answers of call {number}");
    assert_eq!(a.more, b.more, "numbers of call {number}");
    assert!(
        a.out == b.out && a.record == b.record,
        "octets of call {number}"
    );
}

/// Gives `lists` lists of `length` calls each to the proved table and to both Rust tables, and counts
/// each answer seen by call: accepted, refused.
pub fn run<T: Calls>(lists: usize, length: usize) -> [[usize; 2]; 8] {
    let mut seen = [[0; 2]; 8];
    let mut r = Random(9185);
    for list in 0..lists {
        let mut proved = T::first();
        let mut scan = Rust::<Scan>::first();
        let mut sorted = Rust::<Sorted>::first();
        let people = [6, 36, 60][list % 3];
        for _ in 0..length {
            let call = random_call(&mut r, people);
            let got = give(&mut proved, &call);
            compare(call.number, &got, &give(&mut scan, &call));
            compare(call.number, &got, &give(&mut sorted, &call));
            seen[call.number][(got.answer >> 32 != 0) as usize] += 1;
        }
    }
    seen
}
