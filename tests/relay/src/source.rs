//! Requests from a seed, each with the answer that the model gives.

use crate::cover::Cover;
use crate::frames::respond;
use crate::requests::Requests;
use crate::table::Table;

pub struct Source {
    requests: Requests,
    table: Table,
    pub cover: Cover,
}

/// Frames of requests and of answers, one behind the other, and where each pair ends.
#[derive(Default)]
pub struct Batch {
    pub requests: Vec<u8>,
    pub answers: Vec<u8>,
    pub ends: Vec<(usize, usize)>,
}

impl Batch {
    pub fn add(&mut self, table: &mut Table, request: &[u8]) -> crate::table::Reply {
        self.requests.extend_from_slice(&(request.len() as u16).to_be_bytes());
        self.requests.extend_from_slice(request);
        let reply = respond(table, request);
        reply.answer.frame(&mut self.answers);
        self.ends.push((self.requests.len(), self.answers.len()));
        reply
    }

    /// The request frame and the answer frame with this index.
    pub fn pair(&self, index: usize) -> (&[u8], &[u8]) {
        let (from, to) = (if index == 0 { (0, 0) } else { self.ends[index - 1] }, self.ends[index]);
        (&self.requests[from.0..to.0], &self.answers[from.1..to.1])
    }
}

impl Source {
    pub fn new(seed: u64) -> Source {
        Source { requests: Requests::new(seed), table: Table::new(), cover: Cover::default() }
    }

    pub fn batch(&mut self, count: usize) -> Batch {
        let mut batch = Batch::default();
        for _ in 0..count {
            let request = self.requests.next(&self.table);
            let reply = batch.add(&mut self.table, &request);
            self.cover.observe(&request, &reply, &self.table);
            self.requests.answered(&request, &reply, &self.table);
        }
        batch
    }
}

/// A model that has answered nothing yet, fed with these requests.
pub fn exchange(requests: &[Vec<u8>]) -> Batch {
    let mut table = Table::new();
    let mut batch = Batch::default();
    for request in requests {
        batch.add(&mut table, request);
    }
    batch
}
