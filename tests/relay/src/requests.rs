//! The mix of requests. The moods make tables grow to 32, stay there, and be emptied often.

use std::collections::VecDeque;

use crate::answer::{put16, Answer};
use crate::frames::FRAME_LIMIT;
use crate::messages::{packet_length, Messages};
use crate::pools::Pools;
use crate::rng::Rng;
use crate::table::{Reply, Table, PACKET_LIMIT};

/// Weights of: Start, Open, Booth packet, Tunnel octets, reset by Tunnel octets, Close, End, Look, Looks at all, Write
/// page, frames that the relay answers itself.
type Mood = [usize; 11];
const DOWN: Mood = [300, 100, 110, 230, 90, 80, 30, 80, 0, 45, 20];
const FILL: Mood = [6, 560, 60, 200, 0, 15, 0, 120, 2, 45, 10];
const FULL: Mood = [10, 230, 150, 330, 0, 70, 0, 160, 3, 45, 20];
const MIXED: Mood = [20, 160, 150, 400, 4, 50, 4, 190, 4, 45, 20];
const RESETS: Mood = [40, 250, 100, 250, 60, 40, 40, 150, 3, 45, 30];
const DRAIN: Mood = [10, 40, 100, 330, 0, 330, 2, 160, 3, 45, 10];

pub struct Requests {
    rng: Rng,
    pools: Pools,
    mood: Mood,
    left: usize,
    queue: VecDeque<Vec<u8>>,
}

impl Requests {
    pub fn new(seed: u64) -> Requests {
        let mut rng = Rng::new(seed);
        let pools = Pools::new(&mut rng);
        Requests { rng, pools, mood: FILL, left: 100, queue: VecDeque::new() }
    }

    /// The next request: its kind and what stands behind it.
    pub fn next(&mut self, table: &Table) -> Vec<u8> {
        if let Some(request) = self.queue.pop_front() {
            return request;
        }
        if self.left == 0 {
            (self.mood, self.left) = match self.rng.weighted(&[30, 35, 20, 10, 5]) {
                0 => (FILL, 120),
                1 => (FULL, 400),
                2 => (MIXED, 300),
                3 => (RESETS, 150),
                _ => (DRAIN, 60),
            };
        }
        self.left -= 1;
        let mood = if table.up() { self.mood } else { DOWN };
        match self.rng.weighted(&mood) {
            0 => self.start(),
            1 => self.open(table),
            2 => self.booth(table),
            3 => behind(4, &self.messages(table).stretch()),
            4 => behind(4, &self.messages(table).reset()),
            5 => self.close(table),
            6 => vec![6],
            7 => behind(7, &self.pools.endpoint(&mut self.rng, table, 70).to_be_bytes()),
            8 => self.look_at_all(table),
            9 => vec![8],
            _ => self.own(table),
        }
    }

    /// After a full table's refusal, sometimes: one close, and the same opening again.
    pub fn answered(&mut self, request: &[u8], reply: &Reply, table: &Table) {
        if !matches!(reply.answer, Answer::Refused { number: 10, .. }) || self.rng.chance(60) {
            return;
        }
        if let Some(record) = self.pools.live(&mut self.rng, table) {
            self.queue.push_back(behind(5, &record.identifier));
            self.queue.push_back(request.to_vec());
            self.queue.push_back(behind(7, &request[1..5]));
        }
    }

    fn messages<'a>(&'a mut self, table: &'a Table) -> Messages<'a> {
        Messages { rng: &mut self.rng, pools: &self.pools, table }
    }

    fn start(&mut self) -> Vec<u8> {
        let good: [&[u8]; 4] = [&[0, 9], &[0, 10], &[0, 9, 0, 10], &[0, 10, 0, 9]];
        let bad: [&[u8]; 12] = [
            &[],
            &[0],
            &[9],
            &[0, 9, 0],
            &[0, 9, 0, 10, 0],
            &[0, 9, 0, 9],
            &[0, 10, 0, 10],
            &[0, 9, 0, 10, 0, 9],
            &[0, 8],
            &[0, 11],
            &[9, 0],
            &[0, 9, 0, 11],
        ];
        let mut list = match self.rng.below(10) {
            0..=5 => self.rng.pick(&good).to_vec(),
            6..=8 => self.rng.pick(&bad).to_vec(),
            _ => Vec::new(),
        };
        if list.is_empty() && self.rng.chance(60) {
            let length = if self.rng.chance(8) {
                self.rng.range(FRAME_LIMIT - 4, FRAME_LIMIT - 1)
            } else {
                self.rng.range(1, 12)
            };
            self.rng.octets(&mut list, length);
        }
        behind(1, &list)
    }

    fn open(&mut self, table: &Table) -> Vec<u8> {
        let mut octets = self.pools.endpoint(&mut self.rng, table, 20).to_be_bytes().to_vec();
        let mut identifier = self.pools.identifier(&mut self.rng, table, 15);
        if self.rng.chance(10) {
            identifier = self.pools.wrong_width(&mut self.rng, table);
        }
        octets.extend_from_slice(&identifier);
        if self.rng.below(400) == 0 {
            octets.resize(self.rng.range(FRAME_LIMIT - 4, FRAME_LIMIT - 1), 7);
        }
        behind(2, &octets)
    }

    fn booth(&mut self, table: &Table) -> Vec<u8> {
        let mut octets = self.pools.endpoint(&mut self.rng, table, 75).to_be_bytes().to_vec();
        let length = match self.rng.below(40) {
            0 => 0,
            1 => PACKET_LIMIT + 1,
            2..=3 => self.rng.range(PACKET_LIMIT + 1, FRAME_LIMIT - 5),
            _ => packet_length(&mut self.rng, PACKET_LIMIT),
        };
        self.rng.octets(&mut octets, length);
        if length > 0 {
            octets[4] = match self.rng.below(16) {
                0 => self.rng.pick(&[0, 3, 4, 15, 16, 19, 64, 79, 80, 127, 128, 191, 192, 255]),
                1..=2 => self.rng.next() as u8,
                3 => 20,
                4 => 63,
                _ => self.rng.range(20, 63) as u8,
            };
        }
        behind(3, &octets)
    }

    fn close(&mut self, table: &Table) -> Vec<u8> {
        let mut identifier = self.pools.identifier(&mut self.rng, table, 60);
        if self.rng.chance(15) {
            identifier = self.pools.wrong_width(&mut self.rng, table);
        }
        if self.rng.below(300) == 0 {
            identifier.resize(FRAME_LIMIT - 1, 3);
        }
        behind(5, &identifier)
    }

    fn look_at_all(&mut self, table: &Table) -> Vec<u8> {
        self.queue.extend(table.live().map(|record| behind(7, &record.endpoint.to_be_bytes())));
        behind(7, &self.pools.endpoint(&mut self.rng, table, 0).to_be_bytes())
    }

    /// Frames that the relay answers itself.
    fn own(&mut self, table: &Table) -> Vec<u8> {
        let mut octets = Vec::new();
        let short = self.rng.below(60);
        let (kind, length) = match self.rng.below(16) {
            0..=7 => (self.unknown(), self.rng.pick(&[0, 1, 4, 20, short])),
            8 => return octets,
            9 => (self.rng.pick(&[2, 3, 7]), self.rng.below(4)),
            10 => (7, self.rng.pick(&[5, 6, 20])),
            11 => (self.rng.pick(&[6, 8]), self.rng.pick(&[1, 2, 4, 20])),
            12 => (self.rng.pick(&[6, 7, 8]), FRAME_LIMIT - 1),
            13 => (self.unknown(), FRAME_LIMIT - 1),
            _ => return self.above(table),
        };
        octets.push(kind);
        self.rng.octets(&mut octets, length);
        octets
    }

    fn unknown(&mut self) -> u8 {
        match self.rng.range(8, 255) {
            8 => 0,
            kind => kind as u8,
        }
    }

    /// A frame above the limit; what it begins with would be a request, or puts the tunnel down, if it were read.
    fn above(&mut self, table: &Table) -> Vec<u8> {
        let length = match self.rng.below(40) {
            0 => 0xFFFF,
            1 => self.rng.range(FRAME_LIMIT + 1, 0xFFFF),
            2..=5 => self.rng.range(FRAME_LIMIT + 1, 8300),
            _ => FRAME_LIMIT + 1,
        };
        let mut octets = match self.rng.below(5) {
            0 => behind(4, &[2, 0, 1, 1]),
            1 => vec![6],
            2 => vec![self.unknown()],
            _ => self.close(table),
        };
        let mut filling = vec![0, 1, 6];
        put16(&mut filling, self.rng.below(0x10000));
        octets.extend(filling.iter().copied().cycle().take(length));
        octets.truncate(length);
        octets
    }
}

fn behind(kind: u8, octets: &[u8]) -> Vec<u8> {
    let mut request = vec![kind];
    request.extend_from_slice(octets);
    request
}
