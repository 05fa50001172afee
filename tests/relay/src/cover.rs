//! What the requests reached: answers by kind, refusals by call, refusals that apply together, single cases by name.

use std::collections::BTreeMap;

use crate::answer::Answer;
use crate::frames::FRAME_LIMIT;
use crate::page::entries;
use crate::reading::{front, media_keys, Front, MediaKeys, A, BODY_LIMIT};
use crate::table::{Reply, Table, MKI_LIMIT, PACKET_LIMIT, PLACES, SALT_LIMIT};

/// The calls; those of Tunnel octets are told apart by the type octet.
pub const CALLS: [&str; 14] = [
    "Start",
    "Open",
    "Booth packet",
    "Close",
    "End",
    "Look",
    "Tunnel, under 3 octets",
    "Tunnel, type 1",
    "Tunnel, type 2",
    "Tunnel, type 3",
    "Tunnel, type 4",
    "Tunnel, type 5",
    "Tunnel, unlisted type",
    "Write page",
];

#[derive(Default)]
pub struct Cover {
    pub requests: u64,
    pub kinds: BTreeMap<u8, u64>,
    /// Answers by call and kind.
    pub answers: BTreeMap<(usize, u8), u64>,
    /// Refusals given, by call and number.
    pub given: BTreeMap<(usize, u8), u64>,
    /// The first was given and the second applied too, by call.
    pub both: BTreeMap<(usize, u8, u8), u64>,
    pub cases: BTreeMap<(&'static str, usize), u64>,
    after_full: AfterFull,
}

/// An opening refused with 10, then one close accepted, then the same opening.
#[derive(Default)]
enum AfterFull {
    #[default]
    Nothing,
    Refused(Vec<u8>),
    Closed(Vec<u8>),
}

pub fn call_of(frame: &[u8]) -> Option<usize> {
    match *frame.first()? {
        1 => Some(0),
        2 => Some(1),
        3 => Some(2),
        5 => Some(3),
        6 => Some(4),
        7 => Some(5),
        4 if frame.len() < 4 => Some(6),
        4 if (1..=5).contains(&frame[1]) => Some(6 + usize::from(frame[1])),
        4 => Some(12),
        8 => Some(13),
        _ => None,
    }
}

impl Cover {
    fn case(&mut self, name: &'static str, number: usize) {
        *self.cases.entry((name, number)).or_default() += 1;
    }

    /// Counts one request; `table` is as the call left it.
    pub fn observe(&mut self, frame: &[u8], reply: &Reply, table: &Table) {
        self.requests += 1;
        let kind = reply.answer.kind();
        *self.kinds.entry(kind).or_default() += 1;
        if kind >= 128 {
            return self.own(frame, kind);
        }
        let call = call_of(frame).expect("a call");
        *self.answers.entry((call, kind)).or_default() += 1;
        if let Answer::Refused { number, .. } = reply.answer {
            self.refused(call, number, reply);
        }
        self.opening(frame, reply, table);
        match frame[0] {
            3 => self.packet(frame, reply),
            4 => self.tunnel(&frame[1..], reply),
            8 => self.page(table),
            _ if frame.len() == FRAME_LIMIT => self.case("frame of the limit, kind", usize::from(frame[0])),
            _ => {}
        }
    }

    fn refused(&mut self, call: usize, number: u8, reply: &Reply) {
        *self.given.entry((call, number)).or_default() += 1;
        for other in (1..=20).filter(|&other| other != number && reply.applying.has(other)) {
            *self.both.entry((call, number, other)).or_default() += 1;
        }
    }

    fn own(&mut self, frame: &[u8], kind: u8) {
        match (kind, frame.first()) {
            (128, Some(&first)) => {
                self.case("unknown kind", usize::from(first));
                if frame.len() == FRAME_LIMIT {
                    self.case("unknown kind in a frame of the limit", 0);
                }
            }
            (129, _) if [FRAME_LIMIT + 1, 0xFFFF].contains(&frame.len()) => {
                self.case("above the limit, exactly", frame.len())
            }
            (129, Some(0 | 9..)) => self.case("above the limit and of unknown kind", 0),
            (129, _) => self.case("above the limit, others", 0),
            (_, None) => self.case("empty frame", 0),
            (_, Some(&first)) if frame.len() < 5 => self.case("frame too short or long, kind", usize::from(first)),
            (_, Some(&first)) => self.case("frame too long, kind", usize::from(first)),
        }
    }

    fn opening(&mut self, frame: &[u8], reply: &Reply, table: &Table) {
        let before = std::mem::take(&mut self.after_full);
        match (&reply.answer, frame[0], before) {
            (Answer::Placed(place), _, before) => {
                self.case("opened at place", *place);
                if table.places[place + 1..].iter().any(|later| later.is_some()) {
                    self.case("freed place used again", 0);
                }
                if table.count() == PLACES {
                    self.case("table made full", 0);
                }
                if matches!(before, AfterFull::Closed(opening) if opening == frame) {
                    self.case("refused with 10, accepted after one close", 0);
                }
            }
            (Answer::Refused { number: 10, .. }, _, _) => self.after_full = AfterFull::Refused(frame.to_vec()),
            (Answer::Written(_), 5, AfterFull::Refused(opening)) => self.after_full = AfterFull::Closed(opening),
            _ => {}
        }
    }

    fn page(&mut self, table: &Table) {
        if !table.up() {
            return self.case("page with the tunnel down", 0);
        }
        let entries = entries(&table.places);
        let keyed = entries.iter().filter(|entry| entry.keyed).count();
        self.case("page of so many entries", entries.len());
        if keyed > 0 && keyed < entries.len() {
            self.case("page of open and keyed entries", 0);
        }
        if entries.iter().enumerate().any(|(at, entry)| entry.place != at) {
            self.case("page with a free place below a live one", 0);
        }
        for entry in entries {
            self.case(if entry.keyed { "keyed entry of place" } else { "open entry of place" }, entry.place);
        }
    }

    fn packet(&mut self, frame: &[u8], reply: &Reply) {
        let length = frame.len() - 5;
        match reply.answer {
            Answer::Written(_) if length == PACKET_LIMIT => self.case("longest packet written", 0),
            Answer::Written(_) => self.case("packet written, first octet", usize::from(frame[5])),
            Answer::Refused { number: 15, .. } if length == PACKET_LIMIT + 1 => self.case("packet one too long", 0),
            Answer::Refused { number: 14, .. } if length == 0 => self.case("empty packet", 0),
            Answer::Refused { number: 14, .. } => self.case("packet not DTLS, first octet", usize::from(frame[5])),
            _ => {}
        }
    }

    fn tunnel(&mut self, octets: &[u8], reply: &Reply) {
        let whole = match front(octets) {
            Front::Whole(_, body) => 3 + body.len(),
            _ => 0,
        };
        let up = !reply.applying.has(1);
        if up && whole > 0 && octets.len() >= whole + 3 && (1..=5).contains(&octets[whole]) {
            self.case("a second message behind the first, not read", 0);
        }
        match (&reply.answer, front(octets)) {
            (Answer::Stored { again, .. }, Front::Whole(_, body)) => {
                let keys = media_keys(body).expect("fields");
                self.stored(&keys, *again);
            }
            (Answer::Delivery { octets, .. }, _) if octets.len() == PACKET_LIMIT => self.case("longest delivery", 0),
            (Answer::Delivery { octets, .. }, _) if octets.len() == 1 => self.case("shortest delivery", 0),
            (Answer::Version { .. }, _) => self.version(octets),
            (Answer::Refused { number: 2, .. }, _) => {
                self.case("length above the limit", usize::from(octets[1..3] == [0x10, 0x01]))
            }
            (Answer::Refused { number: 3, .. }, _) => {
                self.case("unlisted type", usize::from(octets[0]));
                if whole == 3 + BODY_LIMIT {
                    self.case("body of the limit", 0);
                }
            }
            (Answer::Refused { number: 5, .. }, Front::Whole(kind, body)) => self.bad_body(kind, body),
            (Answer::Refused { number: 8, .. }, Front::Whole(_, body)) if !reply.applying.has(9) => {
                self.key_length(body)
            }
            (Answer::Refused { number: 9, .. }, Front::Whole(_, body)) => self.too_long(body),
            (Answer::More, _) if octets.len() >= 3 => self.case("more needed, type", usize::from(octets[0].min(6))),
            _ => {}
        }
    }

    fn version(&mut self, octets: &[u8]) {
        let length = usize::from(octets[1]) * 256 + usize::from(octets[2]);
        self.case("type 2 above the limit", usize::from(length > BODY_LIMIT));
        self.case(
            "type 2: octets there, against its length (0 fewer, 1 as many, 2 more)",
            match octets.len() - 3 {
                there if there < length => 0,
                there if there == length => 1,
                _ => 2,
            },
        );
    }

    fn stored(&mut self, keys: &MediaKeys, again: bool) {
        self.case(if again { "keyed record keyed again" } else { "open record keyed" }, 0);
        self.case("stored under profile", usize::from(keys.profile));
        self.case("stored MKI", keys.mki.len());
        self.case("stored client salt", keys.client_salt.len());
        self.case("stored server salt", keys.server_salt.len());
    }

    fn key_length(&mut self, body: &[u8]) {
        let keys = media_keys(body).expect("fields");
        let right = if keys.profile == 9 { 16 } else { 32 };
        match (keys.client_key.len() == right, keys.server_key.len() == right) {
            (false, true) => self.case("only the client key's length wrong", right),
            (true, false) => self.case("only the server key's length wrong", right),
            _ if keys.client_key.len() == 48 - right => self.case("keys of the other profile", right),
            _ => {}
        }
    }

    fn too_long(&mut self, body: &[u8]) {
        let keys = media_keys(body).expect("fields");
        let lengths =
            (keys.mki.len() > MKI_LIMIT, keys.client_salt.len() > SALT_LIMIT, keys.server_salt.len() > SALT_LIMIT);
        match lengths {
            (true, false, false) => {
                self.case("only the MKI too long, by one", usize::from(keys.mki.len() == MKI_LIMIT + 1))
            }
            (false, true, false) => self
                .case("only the client salt too long, by one", usize::from(keys.client_salt.len() == SALT_LIMIT + 1)),
            (false, false, true) => self
                .case("only the server salt too long, by one", usize::from(keys.server_salt.len() == SALT_LIMIT + 1)),
            _ => {}
        }
    }

    fn bad_body(&mut self, kind: u8, body: &[u8]) {
        let slip = match (kind, media_keys(body)) {
            (_, _) if body.is_empty() => 0,
            (_, _) if body.len() < A => 1,
            (3, None) => 2,
            (3, Some(keys)) if keys.behind > 0 => 3,
            (3, Some(_)) => 4,
            (4, _) if body.len() < A + 2 => 5,
            (4, _) if body.len() == A + 2 => 6,
            (4, _) if usize::from(body[A]) * 256 + usize::from(body[A + 1]) < body.len() - A - 2 => 7,
            (4, _) => 8,
            _ => 9,
        };
        self.case(SLIPS[slip], usize::from(kind));
    }
}

/// The kinds of bad bodies, each counted by the type.
const SLIPS: [&str; 10] = [
    "bad body: empty",
    "bad body: ends in the identifier",
    "bad body: ends in a field",
    "bad body: octets behind the last field",
    "bad body: empty key or salt",
    "bad body: no length",
    "bad body: no DTLS octets",
    "bad body: length too small",
    "bad body: length too large",
    "bad body: octets behind the identifier",
];
