//! The tunnel and the table, written from document 01 ("The record and its calls") and document 02 alone.

use crate::answer::{put16, Answer};
use crate::page;
use crate::reading::{front, good_body, media_keys, number16, Front, MediaKeys, A};
use crate::refusals::Refusals;

pub const PLACES: usize = 32;
pub const PACKET_LIMIT: usize = 4094 - A;
pub const MKI_LIMIT: usize = 16;
pub const SALT_LIMIT: usize = 32;

pub struct Keys {
    pub profile: u16,
    pub mki: Vec<u8>,
    pub client_key: Vec<u8>,
    pub server_key: Vec<u8>,
    pub client_salt: Vec<u8>,
    pub server_salt: Vec<u8>,
}

pub struct Record {
    pub identifier: Vec<u8>,
    pub endpoint: u32,
    pub keys: Option<Keys>,
}

/// `list` is None while the tunnel is down.
pub struct Table {
    pub list: Option<Vec<u16>>,
    pub places: Vec<Option<Record>>,
}

/// An answer, with all refusals that apply to the call.
pub struct Reply {
    pub answer: Answer,
    pub applying: Refusals,
}

fn accepted(answer: Answer) -> Reply {
    Reply { answer, applying: Refusals::default() }
}

fn refused(number: u8, taken: usize, applying: Refusals) -> Reply {
    Reply { answer: Answer::Refused { number, taken }, applying }
}

fn empty_places() -> Vec<Option<Record>> {
    (0..PLACES).map(|_| None).collect()
}

fn good_list(octets: &[u8]) -> bool {
    let profiles = profiles(octets);
    let known = profiles.iter().all(|&profile| key_length(profile).is_some());
    let repeat = (1..profiles.len()).any(|at| profiles[..at].contains(&profiles[at]));
    !octets.is_empty() && octets.len() % 2 == 0 && known && !repeat
}

fn profiles(octets: &[u8]) -> Vec<u16> {
    octets.chunks_exact(2).map(|pair| number16(pair, 0) as u16).collect()
}

pub fn key_length(profile: u16) -> Option<usize> {
    match profile {
        0x0009 => Some(16),
        0x000A => Some(32),
        _ => None,
    }
}

fn message(kind: u8, parts: &[&[u8]]) -> Vec<u8> {
    let mut octets = vec![kind];
    put16(&mut octets, parts.iter().map(|part| part.len()).sum());
    parts.iter().for_each(|part| octets.extend_from_slice(part));
    octets
}

fn pair(number: usize) -> [u8; 2] {
    (number as u16).to_be_bytes()
}

impl Table {
    pub fn new() -> Table {
        Table { list: None, places: empty_places() }
    }

    pub fn up(&self) -> bool {
        self.list.is_some()
    }

    pub fn live(&self) -> impl Iterator<Item = &Record> {
        self.places.iter().flatten()
    }

    pub fn count(&self) -> usize {
        self.live().count()
    }

    pub fn place_of_identifier(&self, identifier: &[u8]) -> Option<usize> {
        let same = |record: &Record| record.identifier == identifier;
        self.places.iter().position(|place| place.as_ref().is_some_and(same))
    }

    pub fn of_endpoint(&self, endpoint: u32) -> Option<&Record> {
        self.live().find(|record| record.endpoint == endpoint)
    }

    fn down(&mut self) {
        self.list = None;
        self.places = empty_places();
    }

    pub fn start(&mut self, list: &[u8]) -> Reply {
        let mut applying = Refusals::default();
        applying.when(self.up(), 17);
        applying.when(!good_list(list), 16);
        if let Some(number) = applying.first(&[17, 16]) {
            return refused(number, 0, applying);
        }
        self.places = empty_places();
        self.list = Some(profiles(list));
        accepted(Answer::Written(message(1, &[&[0], &pair(list.len()), list])))
    }

    pub fn open(&mut self, identifier: &[u8], endpoint: u32) -> Reply {
        let mut applying = Refusals::default();
        applying.when(!self.up(), 1);
        applying.when(identifier.len() != A, 20);
        applying.when(self.place_of_identifier(identifier).is_some(), 11);
        applying.when(self.of_endpoint(endpoint).is_some(), 12);
        applying.when(self.count() == PLACES, 10);
        if let Some(number) = applying.first(&[1, 20, 11, 12, 10]) {
            return refused(number, 0, applying);
        }
        let free = self.places.iter().position(|place| place.is_none()).expect("a free place");
        self.places[free] = Some(Record { identifier: identifier.to_vec(), endpoint, keys: None });
        accepted(Answer::Placed(free))
    }

    pub fn booth(&self, endpoint: u32, packet: &[u8]) -> Reply {
        let record = self.of_endpoint(endpoint);
        let dtls = packet.first().is_some_and(|first| (20..=63).contains(first));
        let mut applying = Refusals::default();
        applying.when(!self.up(), 1);
        applying.when(record.is_none(), 6);
        applying.when(!dtls, 14);
        applying.when(packet.len() > PACKET_LIMIT, 15);
        match (applying.first(&[1, 6, 14, 15]), record) {
            (None, Some(record)) => {
                let parts = [&record.identifier[..], &pair(packet.len()), packet];
                accepted(Answer::Written(message(4, &parts)))
            }
            (number, _) => refused(number.expect("a refusal"), 0, applying),
        }
    }

    pub fn close(&mut self, identifier: &[u8]) -> Reply {
        let place = self.place_of_identifier(identifier);
        let mut applying = Refusals::default();
        applying.when(!self.up(), 1);
        applying.when(identifier.len() != A, 20);
        applying.when(place.is_none(), 6);
        match (applying.first(&[1, 20, 6]), place) {
            (None, Some(place)) => {
                self.places[place] = None;
                accepted(Answer::Written(message(5, &[identifier])))
            }
            (number, _) => refused(number.expect("a refusal"), 0, applying),
        }
    }

    pub fn end(&mut self) -> Reply {
        let mut applying = Refusals::default();
        applying.when(!self.up(), 1);
        if applying.has(1) {
            return refused(1, 0, applying);
        }
        self.down();
        accepted(Answer::Ended)
    }

    pub fn look(&self, endpoint: u32) -> Reply {
        let record = self.of_endpoint(endpoint);
        let mut applying = Refusals::default();
        applying.when(!self.up(), 1);
        applying.when(record.is_none(), 6);
        match (applying.first(&[1, 6]), record) {
            (None, Some(record)) => accepted(Answer::Found(record.octets())),
            (number, _) => refused(number.expect("a refusal"), 0, applying),
        }
    }

    /// A down tunnel has no live association, so its page shows none.
    pub fn page(&self) -> Reply {
        accepted(Answer::Page(page::held(&page::entries(&self.places))))
    }

    pub fn tunnel(&mut self, octets: &[u8]) -> Reply {
        let read = front(octets);
        let mut applying = Refusals::default();
        applying.when(!self.up(), 1);
        self.message_refusals(&read, &mut applying);
        let taken = match read {
            Front::Version(_) => octets.len(),
            Front::EmptyVersion => 3,
            Front::Whole(_, body) => 3 + body.len(),
            _ => 0,
        };
        match applying.first(&[1, 2, 3, 4, 5, 6, 7, 8, 9]) {
            Some(1) => refused(1, 0, applying),
            Some(2) => {
                self.down();
                refused(2, 0, applying)
            }
            Some(number) => refused(number, taken, applying),
            None => accepted(self.take(read, taken)),
        }
    }

    fn message_refusals(&self, read: &Front, applying: &mut Refusals) {
        match *read {
            Front::More | Front::Version(_) => {}
            Front::EmptyVersion => applying.when(true, 5),
            Front::TooLong(kind) => {
                applying.when(true, 2);
                applying.when(kind == 1, 4);
                applying.when(kind == 0 || kind > 5, 3);
            }
            Front::Whole(kind, body) => {
                applying.when(kind == 0 || kind > 5, 3);
                applying.when(kind == 1, 4);
                applying.when((1..=5).contains(&kind) && !good_body(kind, body), 5);
                if (3..=5).contains(&kind) && body.len() >= A {
                    applying.when(self.place_of_identifier(&body[..A]).is_none(), 6);
                }
                if let (3, Some(keys)) = (kind, media_keys(body)) {
                    self.key_refusals(&keys, applying);
                }
            }
        }
    }

    fn key_refusals(&self, keys: &MediaKeys, applying: &mut Refusals) {
        let listed = self.list.as_ref().is_some_and(|list| list.contains(&keys.profile));
        applying.when(!listed, 7);
        if let Some(length) = key_length(keys.profile) {
            applying.when(keys.client_key.len() != length || keys.server_key.len() != length, 8);
        }
        let salts = keys.client_salt.len().max(keys.server_salt.len());
        applying.when(keys.mki.len() > MKI_LIMIT || salts > SALT_LIMIT, 9);
    }

    /// Does what a message without a refusal asks.
    fn take(&mut self, read: Front, taken: usize) -> Answer {
        match read {
            Front::Version(version) => {
                self.down();
                Answer::Version { taken, version }
            }
            Front::Whole(kind, body) => {
                let place = self.place_of_identifier(&body[..A]).expect("a live association");
                let record = self.places[place].as_mut().expect("a record");
                let endpoint = record.endpoint;
                match kind {
                    3 => {
                        let again = record.keys.is_some();
                        record.keys = media_keys(body).map(|keys| keys.kept());
                        Answer::Stored { taken, endpoint, again }
                    }
                    4 => {
                        let octets = body[A + 2..].to_vec();
                        Answer::Delivery { taken, endpoint, octets }
                    }
                    _ => {
                        self.places[place] = None;
                        Answer::Removed { taken, endpoint }
                    }
                }
            }
            _ => Answer::More,
        }
    }
}

impl MediaKeys<'_> {
    fn kept(&self) -> Keys {
        Keys {
            profile: self.profile,
            mki: self.mki.to_vec(),
            client_key: self.client_key.to_vec(),
            server_key: self.server_key.to_vec(),
            client_salt: self.client_salt.to_vec(),
            server_salt: self.server_salt.to_vec(),
        }
    }
}

fn padded(out: &mut Vec<u8>, field: &[u8], width: usize) {
    out.push(field.len() as u8);
    out.extend_from_slice(field);
    out.resize(out.len() + width - field.len(), 0);
}

impl Record {
    /// The 172 octets of a Look.
    fn octets(&self) -> Vec<u8> {
        let mut out = vec![if self.keys.is_some() { 2 } else { 1 }];
        out.extend_from_slice(&self.identifier);
        out.extend_from_slice(&self.endpoint.to_be_bytes());
        if let Some(keys) = &self.keys {
            put16(&mut out, usize::from(keys.profile));
            padded(&mut out, &keys.mki, 16);
            let fields = [&keys.client_key, &keys.server_key, &keys.client_salt, &keys.server_salt];
            fields.iter().for_each(|field| padded(&mut out, field, 32));
        }
        out.resize(172, 0);
        out
    }
}
