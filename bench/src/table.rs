//! An ordinary Rust table that does the work of the distributor's eight calls: an array of records,
//! searched from the front for an identifier, and by a `Lookup` for an endpoint. It has no heap, no
//! unsafe code and no dependency.

use crate::bits::BitWriter;

pub const PLACES: usize = 32;
const WIDTH: usize = 16;
const HEADER: usize = 3;
const BODY_LIMIT: usize = 4096;
const PACKET_LIMIT: usize = BODY_LIMIT - WIDTH - 2;
const COUNT_BITS: usize = 6;
const PLACE_BITS: usize = 5;
const ENDPOINT_BITS: usize = 32;
const ENTRY_BITS: usize = PLACE_BITS + 1 + ENDPOINT_BITS;

/// A refusal by its number.
#[derive(Clone, Copy, Debug, PartialEq, Eq)]
pub struct Refusal(pub u8);

#[derive(Clone, Copy, PartialEq, Eq)]
enum State {
    Vacant,
    Open,
    Keyed,
}

/// Up to N octets, with zeros behind them.
#[derive(Clone, Copy)]
pub struct Field<const N: usize> {
    pub length: u8,
    pub octets: [u8; N],
}

impl<const N: usize> Field<N> {
    const EMPTY: Self = Field {
        length: 0,
        octets: [0; N],
    };

    /// `octets` are at most N.
    fn new(octets: &[u8]) -> Self {
        let mut field = Self::EMPTY;
        field.length = octets.len() as u8;
        field.octets[..octets.len()].copy_from_slice(octets);
        field
    }
}

#[derive(Clone, Copy)]
pub struct Keys {
    pub profile: u16,
    pub mki: Field<16>,
    pub client_key: Field<32>,
    pub server_key: Field<32>,
    pub client_salt: Field<32>,
    pub server_salt: Field<32>,
}

impl Keys {
    const NONE: Keys = Keys {
        profile: 0,
        mki: Field::EMPTY,
        client_key: Field::EMPTY,
        server_key: Field::EMPTY,
        client_salt: Field::EMPTY,
        server_salt: Field::EMPTY,
    };
}

#[derive(Clone, Copy)]
pub struct Record {
    state: State,
    pub identifier: [u8; WIDTH],
    pub endpoint: u32,
    pub keys: Keys,
}

impl Record {
    const VACANT: Record = Record {
        state: State::Vacant,
        identifier: [0; WIDTH],
        endpoint: 0,
        keys: Keys::NONE,
    };

    pub fn is_live(&self) -> bool {
        self.state != State::Vacant
    }

    pub fn is_keyed(&self) -> bool {
        self.state == State::Keyed
    }
}

/// How a table finds a live record by its endpoint. Live endpoints are distinct.
pub trait Lookup: Copy {
    const EMPTY: Self;

    /// Where an endpoint that is not live is to be entered.
    type Gap;

    fn find(&self, records: &[Record; PLACES], endpoint: u32) -> Option<usize>;

    /// None where the endpoint is live.
    fn gap(&self, records: &[Record; PLACES], endpoint: u32) -> Option<Self::Gap>;

    fn insert(&mut self, gap: Self::Gap, endpoint: u32, place: usize);

    fn remove(&mut self, endpoint: u32);

    /// How many records are live.
    fn count(&self, records: &[Record; PLACES]) -> usize;
}

#[derive(Clone, Copy)]
pub struct Table<L> {
    up: bool,
    list_length: usize,
    list: [u8; 4],
    records: [Record; PLACES],
    lookup: L,
}

/// What octets from the key distributor led to.
pub enum Received {
    Refused {
        number: u8,
        taken: usize,
    },
    MoreNeeded,
    KeysStored {
        endpoint: u32,
        taken: usize,
    },
    Delivery {
        endpoint: u32,
        start: usize,
        end: usize,
        taken: usize,
    },
    Disconnected {
        endpoint: u32,
        taken: usize,
    },
    Version {
        version: u8,
        taken: usize,
    },
}

fn key_length(profile: u16) -> Option<usize> {
    match profile {
        0x0009 => Some(16),
        0x000A => Some(32),
        _ => None,
    }
}

fn in_list(profile: u16, list: &[u8]) -> bool {
    list.chunks_exact(2)
        .any(|entry| u16::from_be_bytes([entry[0], entry[1]]) == profile)
}

fn is_good_list(list: &[u8]) -> bool {
    !list.is_empty()
        && list.len() % 2 == 0
        && list.chunks_exact(2).enumerate().all(|(i, entry)| {
            let profile = u16::from_be_bytes([entry[0], entry[1]]);
            key_length(profile).is_some() && !in_list(profile, &list[2 * i + 2..])
        })
}

fn split8(body: &[u8], least: usize) -> Option<(&[u8], &[u8])> {
    let (&length, rest) = body.split_first()?;
    if (length as usize) < least {
        return None;
    }
    rest.split_at_checked(length as usize)
}

struct MediaKeys<'a> {
    identifier: &'a [u8],
    profile: u16,
    mki: &'a [u8],
    client_key: &'a [u8],
    server_key: &'a [u8],
    client_salt: &'a [u8],
    server_salt: &'a [u8],
}

fn media_keys(body: &[u8]) -> Option<MediaKeys<'_>> {
    let (identifier, rest) = body.split_at_checked(WIDTH)?;
    let (profile, rest) = rest.split_at_checked(2)?;
    let (mki, rest) = split8(rest, 0)?;
    let (client_key, rest) = split8(rest, 1)?;
    let (server_key, rest) = split8(rest, 1)?;
    let (client_salt, rest) = split8(rest, 1)?;
    let (server_salt, rest) = split8(rest, 1)?;
    rest.is_empty().then_some(MediaKeys {
        identifier,
        profile: u16::from_be_bytes([profile[0], profile[1]]),
        mki,
        client_key,
        server_key,
        client_salt,
        server_salt,
    })
}

/// The identifier and the DTLS octets.
fn tunneled_dtls(body: &[u8]) -> Option<(&[u8], &[u8])> {
    let (identifier, rest) = body.split_at_checked(WIDTH)?;
    let (length, dtls) = rest.split_at_checked(2)?;
    let length = u16::from_be_bytes([length[0], length[1]]) as usize;
    (length >= 1 && dtls.len() == length).then_some((identifier, dtls))
}

impl<L: Lookup> Table<L> {
    pub const DOWN: Self = Table {
        up: false,
        list_length: 0,
        list: [0; 4],
        records: [Record::VACANT; PLACES],
        lookup: L::EMPTY,
    };

    fn place_of_identifier(&self, identifier: &[u8]) -> Option<usize> {
        self.records
            .iter()
            .position(|r| r.is_live() && r.identifier == *identifier)
    }

    fn place_of_endpoint(&self, endpoint: u32) -> Option<usize> {
        self.lookup.find(&self.records, endpoint)
    }

    fn vacate(&mut self, place: usize) {
        self.lookup.remove(self.records[place].endpoint);
        self.records[place] = Record::VACANT;
    }

    fn require_up(&self) -> Result<(), Refusal> {
        if self.up {
            Ok(())
        } else {
            Err(Refusal(1))
        }
    }

    pub fn start(&mut self, list: &[u8], out: &mut [u8]) -> Result<usize, Refusal> {
        if self.up {
            return Err(Refusal(17));
        }
        if !is_good_list(list) {
            return Err(Refusal(16));
        }
        let count = HEADER + 3 + list.len();
        let Some(out) = out.get_mut(..count) else {
            return Err(Refusal(13));
        };
        out[0] = 1;
        out[1..3].copy_from_slice(&(3 + list.len() as u16).to_be_bytes());
        out[3] = 0;
        out[4..6].copy_from_slice(&(list.len() as u16).to_be_bytes());
        out[6..].copy_from_slice(list);
        *self = Self::DOWN;
        self.up = true;
        self.list_length = list.len();
        self.list[..list.len()].copy_from_slice(list);
        Ok(count)
    }

    pub fn open(&mut self, identifier: &[u8], endpoint: u32) -> Result<usize, Refusal> {
        self.require_up()?;
        let Ok(identifier) = <[u8; WIDTH]>::try_from(identifier) else {
            return Err(Refusal(20));
        };
        if self.place_of_identifier(&identifier).is_some() {
            return Err(Refusal(11));
        }
        let Some(gap) = self.lookup.gap(&self.records, endpoint) else {
            return Err(Refusal(12));
        };
        let place = self
            .records
            .iter()
            .position(|r| !r.is_live())
            .ok_or(Refusal(10))?;
        self.records[place] = Record {
            state: State::Open,
            identifier,
            endpoint,
            keys: Keys::NONE,
        };
        self.lookup.insert(gap, endpoint, place);
        Ok(place)
    }

    pub fn booth_packet(
        &self,
        endpoint: u32,
        packet: &[u8],
        out: &mut [u8],
    ) -> Result<usize, Refusal> {
        self.require_up()?;
        let place = self.place_of_endpoint(endpoint).ok_or(Refusal(6))?;
        if !matches!(packet.first(), Some(20..=63)) {
            return Err(Refusal(14));
        }
        if packet.len() > PACKET_LIMIT {
            return Err(Refusal(15));
        }
        let count = HEADER + WIDTH + 2 + packet.len();
        let Some(out) = out.get_mut(..count) else {
            return Err(Refusal(13));
        };
        out[0] = 4;
        out[1..3].copy_from_slice(&((WIDTH + 2 + packet.len()) as u16).to_be_bytes());
        out[3..19].copy_from_slice(&self.records[place].identifier);
        out[19..21].copy_from_slice(&(packet.len() as u16).to_be_bytes());
        out[21..].copy_from_slice(packet);
        Ok(count)
    }

    /// The endpoint of the record that has the keys now.
    fn take_keys(&mut self, keys: MediaKeys) -> Result<u32, Refusal> {
        let place = self
            .place_of_identifier(keys.identifier)
            .ok_or(Refusal(6))?;
        if !in_list(keys.profile, &self.list[..self.list_length]) {
            return Err(Refusal(7));
        }
        let length = key_length(keys.profile);
        if length != Some(keys.client_key.len()) || length != Some(keys.server_key.len()) {
            return Err(Refusal(8));
        }
        if keys.mki.len() > 16 || keys.client_salt.len() > 32 || keys.server_salt.len() > 32 {
            return Err(Refusal(9));
        }
        let record = &mut self.records[place];
        record.state = State::Keyed;
        record.keys = Keys {
            profile: keys.profile,
            mki: Field::new(keys.mki),
            client_key: Field::new(keys.client_key),
            server_key: Field::new(keys.server_key),
            client_salt: Field::new(keys.client_salt),
            server_salt: Field::new(keys.server_salt),
        };
        Ok(record.endpoint)
    }

    /// A whole message.
    fn take_message(&mut self, kind: u8, body: &[u8], taken: usize) -> Received {
        let refused = |number| Received::Refused { number, taken };
        match kind {
            1 => refused(4),
            3 => match media_keys(body) {
                None => refused(5),
                Some(keys) => match self.take_keys(keys) {
                    Ok(endpoint) => Received::KeysStored { endpoint, taken },
                    Err(Refusal(number)) => refused(number),
                },
            },
            4 => match tunneled_dtls(body) {
                None => refused(5),
                Some((identifier, dtls)) => match self.place_of_identifier(identifier) {
                    None => refused(6),
                    Some(place) => {
                        let start = HEADER + WIDTH + 2;
                        Received::Delivery {
                            endpoint: self.records[place].endpoint,
                            start,
                            end: start + dtls.len(),
                            taken,
                        }
                    }
                },
            },
            5 if body.len() != WIDTH => refused(5),
            5 => match self.place_of_identifier(body) {
                None => refused(6),
                Some(place) => {
                    let endpoint = self.records[place].endpoint;
                    self.vacate(place);
                    Received::Disconnected { endpoint, taken }
                }
            },
            _ => refused(3),
        }
    }

    pub fn tunnel_octets(&mut self, s: &[u8]) -> Received {
        if !self.up {
            return Received::Refused {
                number: 1,
                taken: 0,
            };
        }
        let &[kind, high, low, ref rest @ ..] = s else {
            return Received::MoreNeeded;
        };
        let length = u16::from_be_bytes([high, low]) as usize;
        if kind == 2 {
            return match rest.first() {
                _ if length == 0 => Received::Refused {
                    number: 5,
                    taken: HEADER,
                },
                None => Received::MoreNeeded,
                Some(&version) => {
                    *self = Self::DOWN;
                    Received::Version {
                        version,
                        taken: s.len(),
                    }
                }
            };
        }
        if length > BODY_LIMIT {
            *self = Self::DOWN;
            return Received::Refused {
                number: 2,
                taken: 0,
            };
        }
        match rest.get(..length) {
            None => Received::MoreNeeded,
            Some(body) => self.take_message(kind, body, HEADER + length),
        }
    }

    pub fn close(&mut self, identifier: &[u8], out: &mut [u8]) -> Result<usize, Refusal> {
        self.require_up()?;
        let Ok(identifier) = <[u8; WIDTH]>::try_from(identifier) else {
            return Err(Refusal(20));
        };
        let place = self.place_of_identifier(&identifier).ok_or(Refusal(6))?;
        let count = HEADER + WIDTH;
        let Some(out) = out.get_mut(..count) else {
            return Err(Refusal(13));
        };
        out[0] = 5;
        out[1..3].copy_from_slice(&(WIDTH as u16).to_be_bytes());
        out[3..].copy_from_slice(&identifier);
        self.vacate(place);
        Ok(count)
    }

    pub fn end(&mut self) -> Result<(), Refusal> {
        self.require_up()?;
        *self = Self::DOWN;
        Ok(())
    }

    pub fn look(&self, endpoint: u32) -> Result<Record, Refusal> {
        self.require_up()?;
        let place = self.place_of_endpoint(endpoint).ok_or(Refusal(6))?;
        Ok(self.records[place])
    }

    /// The status page. With the tunnel down no record is live.
    pub fn write_page(&self, out: &mut [u8]) -> Result<usize, Refusal> {
        let count = self.lookup.count(&self.records);
        let length = (COUNT_BITS + count * ENTRY_BITS).div_ceil(8);
        let Some(out) = out.get_mut(..length) else {
            return Err(Refusal(13));
        };
        let mut page = BitWriter::new(out);
        page.put(count as u32, COUNT_BITS);
        for (place, r) in self.records.iter().enumerate() {
            if r.is_live() {
                page.put((place as u32) << 1 | r.is_keyed() as u32, PLACE_BITS + 1);
                page.put(r.endpoint, ENDPOINT_BITS);
            }
        }
        page.finish();
        Ok(length)
    }
}
