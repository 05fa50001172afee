//! Input that ends inside a frame, a relay that is killed, and an output that nobody reads.

use std::io::Read;
use std::path::Path;

use crate::child::Relay;
use crate::failure::{hex, Failure};
use crate::reading::A;
use crate::source::{exchange, Batch, Source};
use crate::streams::one_by_one;

fn request(kind: u8, parts: &[&[u8]]) -> Vec<u8> {
    let mut octets = vec![kind];
    parts.iter().for_each(|part| octets.extend_from_slice(part));
    octets
}

fn media_keys(identifier: &[u8]) -> Vec<u8> {
    let fields: [&[u8]; 5] = [&[2, 1, 2], &[16; 17], &[16; 17], &[1, 5], &[2, 6, 7]];
    let body: Vec<u8> = [identifier, &[0, 9]].into_iter().chain(fields).flatten().copied().collect();
    request(4, &[&[3, 0, body.len() as u8], &body])
}

/// Every call once or more, and the relay's own answers.
fn short_exchange() -> Batch {
    let (identifier, endpoint) = ([0xA5; A], [0, 0, 1, 2]);
    let delivery: [&[u8]; 3] = [&[4, 0, 20], &identifier, &[0, 2, 22, 1]];
    exchange(&[
        request(7, &[&endpoint]),
        vec![8],
        request(1, &[&[0, 9, 0, 10]]),
        request(2, &[&endpoint, &identifier]),
        vec![],
        vec![8],
        media_keys(&identifier),
        vec![8],
        request(7, &[&endpoint]),
        request(3, &[&endpoint, &[22, 1, 2, 3]]),
        request(4, &delivery),
        request(99, &[&[1, 2]]),
        request(6, &[&[0]]),
        request(8, &[&[0]]),
        request(4, &[&[3, 0]]),
        request(5, &[&identifier]),
        request(4, &[&[2, 0, 1, 7]]),
        request(1, &[&[0, 10]]),
        vec![6],
    ])
}

/// Sends the front of a stream and ends the input there: the answers to the whole frames, and nothing more.
fn cut_at(path: &Path, batch: &Batch, position: usize) -> Result<(), Failure> {
    let whole = batch.ends.iter().filter(|end| end.0 <= position).count();
    let expected = if whole == 0 { &[][..] } else { &batch.answers[..batch.ends[whole - 1].1] };
    let mut relay = Relay::start(path)?;
    relay.send(&batch.requests[..position]);
    drop(relay.input.take());
    let mut given = Vec::new();
    let _ = relay.output.as_mut().expect("output").read_to_end(&mut given);
    let ended = relay.end();
    let failed = match ended {
        Ok(_) if given == expected => return Ok(()),
        Ok(_) => hex(&given),
        Err(failure) => failure.what,
    };
    let what = format!("input cut at octet {position}\nexpected: {}\ngiven:    {failed}", hex(expected));
    Err(Failure { what, stream: batch.requests[..position].to_vec() })
}

/// Every position of the short exchange, and some inside a frame that is skipped. Gives how many.
pub fn cut_off(path: &Path) -> Result<usize, Failure> {
    let short = short_exchange();
    for position in 0..=short.requests.len() {
        cut_at(path, &short, position)?;
    }
    let skipped = exchange(&[vec![6; 5000], vec![6], vec![6; 0xFFFF], vec![6]]);
    let mut cuts = 0;
    for position in (0..=skipped.requests.len()).step_by(997).chain([1, 2, 3, 5001, 5002, 5003, 70540, 70541, 70542]) {
        cut_at(path, &skipped, position)?;
        cuts += 1;
    }
    Ok(short.requests.len() + 1 + cuts)
}

/// The tunnel up, and each endpoint's association opened, keyed and looked at.
fn before_kill(endpoints: &[[u8; 4]]) -> Vec<Vec<u8>> {
    let mut requests = vec![request(1, &[&[0, 9]])];
    for endpoint in endpoints {
        let identifier = [endpoint[3]; A];
        requests.push(request(2, &[endpoint, &identifier]));
        requests.push(media_keys(&identifier));
        requests.push(request(7, &[endpoint]));
    }
    requests
}

/// Kills a relay in the middle of a stream; a new one knows nothing of the table before.
pub fn killed(path: &Path, seed: u64, round: u8) -> Result<(), Failure> {
    let endpoints: Vec<[u8; 4]> = (0..=round % 32).map(|number| [round, 1, 2, number]).collect();
    let before = exchange(&before_kill(&endpoints));
    let found = (0..before.ends.len()).filter(|&index| before.pair(index).1[2] == 5).count();
    assert_eq!(found, endpoints.len(), "each association is live before the kill");
    let mut relay = Relay::start(path)?;
    let mut given = Vec::new();
    for index in 0..before.ends.len() {
        let (request, expected) = before.pair(index);
        relay.send(request);
        relay.answer(&mut given);
        if given != expected {
            return Err(Failure::answer(&before, index, &given));
        }
    }
    // Looks without reading the answers, few enough for a pipe, the last frame cut.
    let look = [&[0, 5, 7][..], &endpoints[0]].concat();
    let looks = look.repeat(200 + usize::from(round) * 3);
    relay.send(&looks[..looks.len() - 1 - usize::from(round) % 6]);
    let rest = relay.kill()?;
    let found = before.pair(3).1.repeat(200 + usize::from(round) * 3);
    if !found.starts_with(&rest) {
        let what = format!("answers before the kill are not Looks: {}", hex(&rest));
        return Err(Failure { what, stream: before.requests });
    }
    after_kill(path, seed, &endpoints)
}

fn after_kill(path: &Path, seed: u64, endpoints: &[[u8; 4]]) -> Result<(), Failure> {
    let mut requests = vec![request(7, &[&endpoints[0]]), request(1, &[&[0, 9]])];
    requests.extend(endpoints.iter().map(|endpoint| request(7, &[endpoint])));
    requests.push(vec![8]);
    requests.push(request(2, &[&endpoints[0], &[endpoints[0][3]; A]]));
    let after = exchange(&requests);
    let gone = (2..2 + endpoints.len()).all(|index| after.pair(index).1 == [0, 4, 1, 6, 0, 0]);
    let none = after.pair(2 + endpoints.len()).1 == [0, 2, 10, 0];
    assert!(
        gone && none && after.pair(1).1[2] == 2,
        "the first state: Start accepted, Look refused with 6, a page of none"
    );
    one_by_one(path, &after)?;
    one_by_one(path, &Source::new(seed).batch(50)).map(|_| ())
}

/// An output that nobody reads any more: the relay stops by itself, though its input stays open.
pub fn unread(path: &Path) -> Result<(), Failure> {
    let mut relay = Relay::start(path)?;
    drop(relay.output.take());
    relay.send(&[0, 1, 6]);
    relay.stopped()
}

/// Replays a kept stream against the model.
pub fn replay(path: &Path, stream: &[u8]) -> Result<usize, Failure> {
    let mut requests = Vec::new();
    let mut rest = stream;
    while let Some(frame) =
        rest.get(..2).and_then(|head| rest.get(2..2 + usize::from(head[0]) * 256 + usize::from(head[1])))
    {
        requests.push(frame.to_vec());
        rest = &rest[2 + frame.len()..];
    }
    one_by_one(path, &exchange(&requests)).map(|speed| speed.requests)
}
