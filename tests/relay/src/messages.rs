//! Octets from the key distributor: the five types, unlisted ones, and what goes wrong with them.

use crate::answer::put16;
use crate::pools::Pools;
use crate::reading::{A, BODY_LIMIT};
use crate::rng::Rng;
use crate::table::{key_length, Table, MKI_LIMIT, PACKET_LIMIT, SALT_LIMIT};

pub struct Messages<'a> {
    pub rng: &'a mut Rng,
    pub pools: &'a Pools,
    pub table: &'a Table,
}

/// The lengths of packets: most are short, some stand at the limit.
pub fn packet_length(rng: &mut Rng, limit: usize) -> usize {
    match rng.below(100) {
        0..=84 => rng.range(1, 64),
        85..=95 => rng.range(65, 600),
        96 => rng.range(601, 2000),
        97 => limit,
        98 => limit - 1,
        _ => rng.range(limit - 30, limit),
    }
}

impl Messages<'_> {
    /// One request's worth of octets.
    pub fn stretch(&mut self) -> Vec<u8> {
        let mut octets = self.message();
        match self.rng.below(100) {
            0..=73 => {}
            74..=83 => {
                let keep = self.rng.below(octets.len());
                octets.truncate(keep);
            }
            84..=86 => {
                let keep = octets.len() - 1;
                octets.truncate(keep);
            }
            87..=88 => octets.truncate(self.rng.below(4)),
            89..=96 => {
                let second = self.message();
                octets.extend_from_slice(&second);
            }
            _ => {
                let more = self.rng.range(1, 40);
                self.rng.octets(&mut octets, more);
            }
        }
        octets
    }

    /// One whole message that leaves the tunnel up: no accepted type 2, no length above the limit.
    fn message(&mut self) -> Vec<u8> {
        let kind = self.rng.weighted(&[6, 45, 20, 15, 10, 4]);
        let (kind, body) = match kind {
            0 => (1, self.profiles()),
            1 => (3, self.media_keys()),
            2 => (4, self.tunneled()),
            3 => (5, self.disconnect()),
            4 => (self.unlisted(), self.any_body()),
            _ => (2, Vec::new()),
        };
        let mut octets = vec![kind];
        put16(&mut octets, body.len());
        octets.extend_from_slice(&body);
        octets
    }

    /// Octets that put the tunnel down when it is up: type 2, or a length above the limit.
    pub fn reset(&mut self) -> Vec<u8> {
        let version = self.rng.chance(40);
        let kind = match self.rng.below(6) {
            _ if version => 2,
            0 | 1 => self.unlisted(),
            2 => 1,
            other => other as u8,
        };
        let above = [BODY_LIMIT + 1, BODY_LIMIT + 1, 5000, 0x8000, 0xFFFF, self.rng.range(BODY_LIMIT + 1, 0xFFFF)];
        let mut length = self.rng.pick(&above);
        if version && self.rng.chance(70) {
            length = self.rng.pick(&[1, 1, 2, 3, 200, BODY_LIMIT]);
        }
        let mut octets = vec![kind];
        put16(&mut octets, length);
        let more = match self.rng.below(10) {
            0..=2 => 0,
            3..=5 => 1,
            6..=8 => self.rng.range(1, 40),
            _ => self.rng.range(4000, 4096),
        };
        self.rng.octets(&mut octets, more);
        octets
    }

    fn unlisted(&mut self) -> u8 {
        match self.rng.range(0, 255) {
            0..=5 => 0,
            kind => kind as u8,
        }
    }

    fn any_body(&mut self) -> Vec<u8> {
        let length = match self.rng.below(40) {
            0 => BODY_LIMIT,
            1..=9 => 0,
            _ => self.rng.below(60),
        };
        let mut body = Vec::new();
        self.rng.octets(&mut body, length);
        body
    }

    fn profiles(&mut self) -> Vec<u8> {
        let count = self.rng.range(1, 5);
        let mut body = vec![self.rng.pick(&[0, 0, 1, 255])];
        put16(&mut body, 2 * count);
        self.rng.octets(&mut body, 2 * count);
        match self.rng.below(10) {
            0 => body.clear(),
            1 => body.truncate(self.rng.below(3)),
            2 => body = vec![0, 0, 0],
            3 => body = vec![0, 0, 3, 0, 9, 0],
            4 => body.push(0),
            5 => body[2] = body[2].wrapping_add(self.rng.pick(&[1, 2, 0xFE, 0xFF])),
            _ => {}
        }
        body
    }

    fn disconnect(&mut self) -> Vec<u8> {
        if self.rng.chance(30) {
            return self.pools.wrong_width(self.rng, self.table);
        }
        self.pools.identifier(self.rng, self.table, 50)
    }

    fn tunneled(&mut self) -> Vec<u8> {
        let mut body = self.pools.identifier(self.rng, self.table, 75);
        let length = packet_length(self.rng, PACKET_LIMIT);
        put16(&mut body, length);
        self.rng.octets(&mut body, length);
        match self.rng.below(20) {
            0 => body.truncate(self.rng.below(A + 3)),
            1 => {
                body.truncate(A);
                body.extend_from_slice(&[0, 0]);
            }
            2 if body.len() < BODY_LIMIT => body.push(20),
            3 => body[A + 1] ^= 1 << self.rng.below(8),
            4 => body[A] ^= 1 << self.rng.below(8),
            5 => {
                let keep = self.rng.below(body.len());
                body.truncate(keep);
            }
            _ => {}
        }
        body
    }

    fn profile(&mut self) -> u16 {
        let list = self.table.list.clone().unwrap_or(vec![9, 10]);
        match self.rng.below(20) {
            0 | 1 => 9,
            2 | 3 => 10,
            4 => self.rng.pick(&[0, 1, 7, 8, 0x000B, 0x0900, 0x0A00, 0x0109, 0x010A]),
            5 if self.rng.chance(30) => self.rng.next() as u16,
            _ => self.rng.pick(&list),
        }
    }

    /// The lengths of MKI, client key, server key, client salt and server salt.
    fn key_fields(&mut self, profile: u16) -> [usize; 5] {
        let rng = &mut *self.rng;
        let key = key_length(profile).unwrap_or(16);
        let mut lengths = [rng.range(0, MKI_LIMIT), key, key, rng.range(1, SALT_LIMIT), rng.range(1, SALT_LIMIT)];
        if rng.chance(14) {
            let any = rng.range(1, 255);
            let wrong = rng.pick(&[48 - key, 48 - key, key - 1, key + 1, 1, 33, 255, any]);
            match rng.below(3) {
                0 => lengths[1] = wrong,
                1 => lengths[2] = wrong,
                _ => (lengths[1], lengths[2]) = (wrong, wrong),
            }
        }
        if rng.chance(18) {
            let long = rng.range(MKI_LIMIT + 1, 255);
            lengths[0] = rng.pick(&[MKI_LIMIT + 1, MKI_LIMIT + 1, MKI_LIMIT + 2, long, MKI_LIMIT]);
        }
        for salt in [3, 4] {
            if rng.chance(10) {
                let long = rng.range(SALT_LIMIT + 1, 255);
                lengths[salt] = rng.pick(&[SALT_LIMIT + 1, SALT_LIMIT + 1, SALT_LIMIT + 2, long, SALT_LIMIT]);
            }
        }
        lengths
    }

    fn media_keys(&mut self) -> Vec<u8> {
        let mut body = self.pools.identifier(self.rng, self.table, 75);
        let profile = self.profile();
        put16(&mut body, usize::from(profile));
        let mut lengths = self.key_fields(profile);
        let slip = self.rng.below(40);
        if slip == 0 {
            lengths[self.rng.range(1, 4)] = 0;
        }
        let mut starts = [0; 5];
        for (start, length) in starts.iter_mut().zip(lengths) {
            *start = body.len();
            body.push(length as u8);
            self.rng.octets(&mut body, length);
        }
        match slip {
            1 => {
                let keep = self.rng.below(body.len());
                body.truncate(keep);
            }
            2 | 3 => body.push(self.rng.pick(&[0, 1, 255])),
            4 => {
                let at = self.rng.pick(&starts);
                body[at] = body[at].wrapping_add(self.rng.pick(&[1, 255]));
            }
            5 => body.truncate(body.len() - 1),
            6 => {
                let more = self.rng.range(1, 60);
                self.rng.octets(&mut body, more);
            }
            _ => {}
        }
        body
    }
}
