//! Long streams: pipelined, one by one, and in pieces of a few octets.

use std::io::{Read, Write};
use std::path::Path;
use std::sync::mpsc::{sync_channel, Receiver};
use std::sync::Arc;
use std::thread;
use std::time::Instant;

use crate::child::Relay;
use crate::cover::Cover;
use crate::failure::{first_difference, Failure};
use crate::rng::Rng;
use crate::source::{Batch, Source};

const BATCH: usize = 2000;

pub struct Speed {
    pub requests: usize,
    pub seconds: f64,
    pub processor: f64,
}

impl Speed {
    pub fn rate(&self) -> usize {
        (self.requests as f64 / self.seconds) as usize
    }
}

/// The requests of a seed up to the one with this index, for a replay.
fn stream_up_to(seed: u64, index: usize) -> Vec<u8> {
    let mut source = Source::new(seed);
    let mut stream = Vec::new();
    for at in (0..=index).step_by(BATCH) {
        stream.extend_from_slice(&source.batch(BATCH.min(index + 1 - at)).requests);
    }
    stream
}

/// Compares batch after batch with what the relay writes.
fn compare(batches: Receiver<Arc<Batch>>, output: &mut impl Read, seed: u64) -> Result<(), Failure> {
    let mut before = 0;
    let mut given = Vec::new();
    while let Ok(batch) = batches.recv() {
        given.clear();
        let _ = output.by_ref().take(batch.answers.len() as u64).read_to_end(&mut given);
        if let Some((index, from)) = first_difference(&batch, &given) {
            drop(batches);
            let _ = output.take(4200).read_to_end(&mut given);
            let mut failure = Failure::answer(&batch, index, &given[from.min(given.len())..]);
            failure.what = format!("request number {} of seed {seed}\n{}", before + index, failure.what);
            failure.stream = stream_up_to(seed, before + index);
            return Err(failure);
        }
        before += batch.ends.len();
    }
    Ok(())
}

/// A writer thread makes and writes the requests, and ends the input; this thread reads and compares the answers.
pub fn pipelined(path: &Path, seed: u64, count: usize) -> Result<(Speed, Cover), Failure> {
    let mut relay = Relay::start(path)?;
    let (mut input, mut output) = (relay.input.take().expect("input"), relay.output.take().expect("output"));
    let (sender, receiver) = sync_channel::<Arc<Batch>>(8);
    let begin = Instant::now();
    let writer = thread::spawn(move || {
        let mut source = Source::new(seed);
        for at in (0..count).step_by(BATCH) {
            let batch = Arc::new(source.batch(BATCH.min(count - at)));
            if sender.send(batch.clone()).is_err() || input.write_all(&batch.requests).is_err() {
                break;
            }
        }
        source.cover
    });
    compare(receiver, &mut output, seed)?;
    let seconds = begin.elapsed().as_secs_f64();
    let cover = writer.join().expect("the writer");
    relay.output = Some(output);
    let processor = relay.end()?;
    if cover.requests != count as u64 {
        return Err(Failure::new(format!("{} requests made of {count}", cover.requests)));
    }
    Ok((Speed { requests: count, seconds, processor }, cover))
}

/// Each request only when the answer before has come; the requests are made beforehand.
pub fn one_by_one(path: &Path, batch: &Batch) -> Result<Speed, Failure> {
    let mut relay = Relay::start(path)?;
    let mut given = Vec::new();
    let begin = Instant::now();
    for index in 0..batch.ends.len() {
        let (request, expected) = batch.pair(index);
        relay.send(request);
        relay.answer(&mut given);
        if given != expected {
            return Err(Failure::answer(batch, index, &given));
        }
    }
    let seconds = begin.elapsed().as_secs_f64();
    let processor = relay.end()?;
    Ok(Speed { requests: batch.ends.len(), seconds, processor })
}

/// The same in pieces of one to seven octets, so that a frame comes in many reads.
pub fn in_pieces(path: &Path, seed: u64, batch: Batch) -> Result<(), Failure> {
    let mut relay = Relay::start(path)?;
    let mut input = relay.input.take().expect("input");
    let batch = Arc::new(batch);
    let (to_write, mut rng) = (batch.clone(), Rng::new(seed));
    let writer = thread::spawn(move || {
        let mut rest = &to_write.requests[..];
        while !rest.is_empty() {
            let (piece, behind) = rest.split_at(rng.range(1, 7).min(rest.len()));
            if input.write_all(piece).is_err() {
                break;
            }
            rest = behind;
        }
    });
    let mut given = Vec::new();
    let _ = relay.output.as_mut().expect("output").take(batch.answers.len() as u64).read_to_end(&mut given);
    writer.join().expect("the writer");
    match first_difference(&batch, &given) {
        Some((index, from)) => Err(Failure::answer(&batch, index, &given[from.min(given.len())..])),
        None => relay.end().map(|_| ()),
    }
}
