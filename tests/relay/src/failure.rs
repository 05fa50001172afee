//! A failing case: what is wrong, in octets, and the whole stream of requests up to it.

use std::path::Path;

use crate::source::Batch;

pub struct Failure {
    pub what: String,
    pub stream: Vec<u8>,
}

pub fn hex(octets: &[u8]) -> String {
    octets.iter().map(|octet| format!("{octet:02x}")).collect()
}

impl Failure {
    pub fn new(what: String) -> Failure {
        Failure { what, stream: Vec::new() }
    }

    /// The first answer of a batch that is not as the model's; `given` is what the relay wrote.
    pub fn answer(batch: &Batch, index: usize, given: &[u8]) -> Failure {
        let (request, expected) = batch.pair(index);
        let length = given.get(..2).map_or(0, |octets| usize::from(octets[0]) * 256 + usize::from(octets[1]));
        let given = &given[..given.len().min(2 + length)];
        let mut what = String::new();
        for before in index.saturating_sub(5)..index {
            let (request, answer) = batch.pair(before);
            what += &format!("before:   {}\n  answer: {}\n", hex(request), hex(answer));
        }
        what += &format!("request:  {}\nexpected: {}\ngiven:    {}", hex(request), hex(expected), hex(given));
        Failure { what, stream: batch.requests[..batch.ends[index].0].to_vec() }
    }

    /// Prints it and keeps the stream, to be replayed.
    pub fn tell(&self, directory: &Path, name: &str) {
        println!("FAILED, {name}\n{}", self.what);
        if self.stream.is_empty() {
            return;
        }
        let file = directory.join(format!("{}.frames", name.replace([' ', ',', ':'], "-")));
        let kept = std::fs::create_dir_all(directory).and_then(|()| std::fs::write(&file, &self.stream));
        match kept {
            Ok(()) => println!("all {} octets of requests up to it: {}", self.stream.len(), file.display()),
            Err(error) => println!("the requests could not be kept in {}: {error}", file.display()),
        }
    }
}

/// The index of the first answer in which `given` differs from the batch's answers.
pub fn first_difference(batch: &Batch, given: &[u8]) -> Option<(usize, usize)> {
    let mut from = 0;
    for (index, &(_, to)) in batch.ends.iter().enumerate() {
        if given.get(from..to) != Some(&batch.answers[from..to]) {
            return Some((index, from));
        }
        from = to;
    }
    None
}
