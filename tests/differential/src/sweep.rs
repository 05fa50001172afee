//! Whole ranges, without chance: every header, every length of tag, every first octet, every length of a list and of
//! DTLS octets to behind the limit, and five lengths of each field of MediaKeys in every combination; of the status page
//! in sweep_page.rs, of the key wrap in sweep_keywrap.rs, of the index in sweep_index.rs.

use crate::case::Case;
use crate::compare::{Bench, Disagreement};
use crate::lent::{Edge, Memory};
use crate::stop;
use crate::sweep_index;
use crate::sweep_keywrap;
use crate::sweep_page;

/// What a sweep was at when it ended early, as a line to be pasted.
pub type Swept = Result<(), (String, Disagreement)>;

pub fn all(bench: &mut Bench) -> Swept {
    first_octets(bench)?;
    headers(bench)?;
    tags(bench)?;
    lists(bench)?;
    packets(bench)?;
    keys(bench)?;
    sweep_page::lengths(bench)?;
    sweep_page::bits(bench)?;
    sweep_page::numbers(bench)?;
    sweep_keywrap::all(bench)?;
    sweep_index::all(bench)
}

pub fn run(bench: &mut Bench, case: Case) -> Swept {
    let _at = stop::during(&case);
    for edge in [Edge::Low, Edge::High] {
        bench.run(&case, edge, 7).map_err(|d| (case.to_string(), d))?;
    }
    Ok(())
}

fn first_octets(bench: &mut Bench) -> Swept {
    for octet in 0..=255 {
        for packet in [vec![octet], vec![octet, 0], vec![octet; 40]] {
            run(bench, Case::Sort { packet })?;
        }
    }
    Ok(())
}

/// Every type with every length: the three octets alone, with a fourth, and whole where a body may be so long.
fn headers(bench: &mut Bench) -> Swept {
    let mut memory = Memory::new(8192);
    let body = [0x5A; 4097];
    for kind in 0..=255u8 {
        for length in 0..=65_535u16 {
            let whole = 3 + length as usize;
            for n in [3, 4, whole] {
                if n > 3 + body.len() {
                    continue;
                }
                let mut octets = vec![kind, (length >> 8) as u8, length as u8];
                octets.extend_from_slice(&body[..n - 3]);
                let at = memory.put(&octets, Edge::High);
                let case = Case::Read { octets, ask: 0 };
                let _at = stop::during(&case);
                let Case::Read { octets, .. } = &case else { unreachable!() };
                bench.read_front(at, octets).map_err(|d| (case.to_string(), d))?;
            }
        }
    }
    Ok(())
}

/// Every type with every length of a tag, in packets that end one octet before, at and behind the range's end.
fn tags(bench: &mut Bench) -> Swept {
    let mut memory = Memory::new(4096);
    for kind in 0..=255u8 {
        for length in 0..=65_535u16 {
            for n in [3, 8, 258, 1027, 1028] {
                // Beside the ends of the ranges, one packet for each length.
                if length > 1030 && n != 1028 {
                    continue;
                }
                let mut packet = vec![0x5A; n];
                packet[n - 3..].copy_from_slice(&[(length >> 8) as u8, length as u8, kind]);
                let at = memory.put(&packet, Edge::High);
                let case = Case::Tag { packet, ask: 0 };
                let _at = stop::during(&case);
                let Case::Tag { packet, .. } = &case else { unreachable!() };
                bench.tag_front(at, packet).map_err(|d| (case.to_string(), d))?;
            }
        }
    }
    Ok(())
}

/// The list one octet or one profile too long for its message, and with less room than it needs.
fn lists(bench: &mut Bench) -> Swept {
    for n in 0..=4100 {
        let list = vec![n as u8; n];
        let mut octets = vec![1, ((n + 3) >> 8) as u8, (n + 3) as u8, 0, (n >> 8) as u8, n as u8];
        octets.extend_from_slice(&list);
        run(bench, Case::Read { octets, ask: 19 })?;
        for room in [n + 5, n + 6, n + 7] {
            run(bench, Case::SupportedProfiles { version: 0, list: list.clone(), room })?;
        }
    }
    Ok(())
}

fn packets(bench: &mut Bench) -> Swept {
    for n in 0..=4100 {
        let (id, dtls) = (vec![0xA7; 16], vec![n as u8; n]);
        let mut octets = vec![4, ((n + 18) >> 8) as u8, (n + 18) as u8];
        octets.extend_from_slice(&id);
        octets.extend_from_slice(&[(n >> 8) as u8, n as u8]);
        octets.extend_from_slice(&dtls);
        run(bench, Case::Read { octets, ask: 19 })?;
        for room in [n + 20, n + 21, n + 22] {
            run(bench, Case::TunneledDtls { id: id.clone(), dtls: dtls.clone(), room })?;
        }
    }
    Ok(())
}

/// Five lengths of each of the five fields; read with a body that is one octet short, right, and one too long.
fn keys(bench: &mut Bench) -> Swept {
    const LENGTHS: [usize; 5] = [0, 1, 16, 254, 255];
    for combination in 0..5usize.pow(5) {
        let lengths: [usize; 5] = std::array::from_fn(|i| LENGTHS[combination / 5usize.pow(i as u32) % 5]);
        let mut body = vec![0x16; 18];
        for (i, n) in lengths.into_iter().enumerate() {
            body.push(n as u8);
            body.extend(vec![i as u8; n]);
        }
        for n in [body.len() - 1, body.len(), body.len() + 1] {
            let mut octets = vec![3, (n >> 8) as u8, n as u8];
            octets.extend_from_slice(&body);
            octets.resize(3 + n, 0);
            run(bench, Case::Read { octets, ask: 19 })?;
        }
        for room in [body.len() + 2, body.len() + 3] {
            let fields = lengths.map(|n| vec![n as u8; n]);
            run(bench, Case::MediaKeys { id: vec![0xA7; 16], profile: 9, fields, room })?;
        }
    }
    Ok(())
}
