//! Identifiers and endpoints to draw from: few enough to meet again, many of them one octet apart.

use crate::reading::A;
use crate::rng::Rng;
use crate::table::{Record, Table};

pub struct Pools {
    identifiers: Vec<Vec<u8>>,
    endpoints: Vec<u32>,
}

impl Pools {
    pub fn new(rng: &mut Rng) -> Pools {
        let mut pools =
            Pools { identifiers: vec![vec![0; A], vec![0xFF; A]], endpoints: vec![0, 1, 0x8000_0000, u32::MAX] };
        for _ in 0..22 {
            let mut identifier = Vec::new();
            rng.octets(&mut identifier, A);
            for octet in [0, A - 1, rng.range(1, A - 2)] {
                let mut near = identifier.clone();
                near[octet] ^= 1 << rng.below(8);
                pools.identifiers.push(near);
            }
            pools.identifiers.push(identifier);
            let endpoint = rng.next() as u32;
            let near = [0, 1, 1 << 8, 1 << 16, 1 << 31].map(|bit| endpoint ^ bit);
            pools.endpoints.extend_from_slice(&near);
        }
        pools
    }

    /// A record of the table, if it has one.
    pub fn live<'a>(&self, rng: &mut Rng, table: &'a Table) -> Option<&'a Record> {
        let count = table.count();
        if count == 0 {
            return None;
        }
        table.live().nth(rng.below(count))
    }

    fn any_identifier(&self, rng: &mut Rng) -> Vec<u8> {
        if rng.chance(90) {
            return self.identifiers[rng.below(self.identifiers.len())].clone();
        }
        let mut identifier = Vec::new();
        rng.octets(&mut identifier, A);
        identifier
    }

    fn any_endpoint(&self, rng: &mut Rng) -> u32 {
        if rng.chance(90) {
            rng.pick(&self.endpoints)
        } else {
            rng.next() as u32
        }
    }

    /// An identifier that is live in `percent` of a hundred cases, when there is one; else any, or near a live one.
    pub fn identifier(&self, rng: &mut Rng, table: &Table, percent: usize) -> Vec<u8> {
        let near = rng.chance(25);
        match self.live(rng, table) {
            Some(record) if rng.chance(percent) => record.identifier.clone(),
            Some(record) if near => {
                let mut identifier = record.identifier.clone();
                identifier[rng.below(A)] ^= 1 << rng.below(8);
                identifier
            }
            _ => self.any_identifier(rng),
        }
    }

    /// An endpoint, drawn likewise.
    pub fn endpoint(&self, rng: &mut Rng, table: &Table, percent: usize) -> u32 {
        let near = rng.chance(25);
        match self.live(rng, table) {
            Some(record) if rng.chance(percent) => record.endpoint,
            Some(record) if near => record.endpoint ^ 1 << rng.below(32),
            _ => self.any_endpoint(rng),
        }
    }

    /// An identifier not of A octets, often a live one cut or with more behind it.
    pub fn wrong_width(&self, rng: &mut Rng, table: &Table) -> Vec<u8> {
        let mut identifier = self.identifier(rng, table, 80);
        match rng.below(8) {
            0 => identifier.clear(),
            1 | 2 => identifier.truncate(A - 1),
            3 => identifier.truncate(rng.below(A)),
            4 | 5 => rng.octets(&mut identifier, 1),
            6 => {
                let more = rng.range(1, 40);
                rng.octets(&mut identifier, more);
            }
            _ => identifier.truncate(4),
        }
        identifier
    }
}
