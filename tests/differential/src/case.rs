//! One call, or the calls on one input, with all its arguments; and the line of text that it is printed as and
//! read back from.

/// `ask`: a field, part or entry number that is asked for beside all those that the interface or the page knows. `room`: the length of the
/// output. `fields`: MKI, client key, server key, client salt, server salt.
#[derive(Clone, PartialEq, Eq, Debug)]
pub enum Case {
    Sort { packet: Vec<u8> },
    Read { octets: Vec<u8>, ask: u32 },
    Tag { packet: Vec<u8>, ask: u32 },
    Page { page: Vec<u8>, ask: usize },
    SupportedProfiles { version: u8, list: Vec<u8>, room: usize },
    UnsupportedVersion { version: u8, room: usize },
    MediaKeys { id: Vec<u8>, profile: u16, fields: [Vec<u8>; 5], room: usize },
    TunneledDtls { id: Vec<u8>, dtls: Vec<u8>, room: usize },
    EndpointDisconnect { id: Vec<u8>, room: usize },
    Wrap { key: Vec<u8>, plaintext: Vec<u8>, room: usize },
    Unwrap { key: Vec<u8>, ciphertext: Vec<u8>, room: usize },
    Index { roc: u32, highest: u16, sequence: u16 },
}

use Case::*;

/// Octets as hex, none as `-`.
pub fn hex(octets: &[u8]) -> String {
    if octets.is_empty() {
        return "-".to_string();
    }
    octets.iter().map(|o| format!("{o:02x}")).collect()
}

pub fn from_hex(text: &str) -> Option<Vec<u8>> {
    if text == "-" {
        return Some(Vec::new());
    }
    if text.is_empty() || text.len() % 2 == 1 || !text.is_ascii() {
        return None;
    }
    (0..text.len()).step_by(2).map(|i| u8::from_str_radix(&text[i..i + 2], 16).ok()).collect()
}

impl std::fmt::Display for Case {
    fn fmt(&self, f: &mut std::fmt::Formatter) -> std::fmt::Result {
        match self {
            Sort { packet } => write!(f, "sort {}", hex(packet)),
            Read { octets, ask } => write!(f, "read {ask} {}", hex(octets)),
            Tag { packet, ask } => write!(f, "tag {ask} {}", hex(packet)),
            Page { page, ask } => write!(f, "page {ask} {}", hex(page)),
            SupportedProfiles { version, list, room } => {
                write!(f, "write-supported-profiles {room} {version} {}", hex(list))
            }
            UnsupportedVersion { version, room } => write!(f, "write-unsupported-version {room} {version}"),
            MediaKeys { id, profile, fields, room } => {
                write!(f, "write-media-keys {room} {} {profile}", hex(id))?;
                fields.iter().try_for_each(|field| write!(f, " {}", hex(field)))
            }
            TunneledDtls { id, dtls, room } => write!(f, "write-tunneled-dtls {room} {} {}", hex(id), hex(dtls)),
            EndpointDisconnect { id, room } => write!(f, "write-endpoint-disconnect {room} {}", hex(id)),
            Wrap { key, plaintext, room } => write!(f, "wrap {room} {} {}", hex(key), hex(plaintext)),
            Unwrap { key, ciphertext, room } => write!(f, "unwrap {room} {} {}", hex(key), hex(ciphertext)),
            Index { roc, highest, sequence } => write!(f, "index {roc} {highest} {sequence}"),
        }
    }
}

/// Reads a line back; `None` where it is not one that a case is printed as.
pub fn parse(line: &str) -> Option<Case> {
    let words: Vec<&str> = line.split_whitespace().collect();
    Some(match words[..] {
        ["sort", packet] => Sort { packet: from_hex(packet)? },
        ["read", ask, octets] => Read { octets: from_hex(octets)?, ask: ask.parse().ok()? },
        ["tag", ask, packet] => Tag { packet: from_hex(packet)?, ask: ask.parse().ok()? },
        ["page", ask, page] => Page { page: from_hex(page)?, ask: ask.parse().ok()? },
        ["write-supported-profiles", room, version, list] => {
            SupportedProfiles { version: version.parse().ok()?, list: from_hex(list)?, room: room.parse().ok()? }
        }
        ["write-unsupported-version", room, version] => {
            UnsupportedVersion { version: version.parse().ok()?, room: room.parse().ok()? }
        }
        ["write-media-keys", room, id, profile, mki, client_key, server_key, client_salt, server_salt] => MediaKeys {
            id: from_hex(id)?,
            profile: profile.parse().ok()?,
            fields: [
                from_hex(mki)?,
                from_hex(client_key)?,
                from_hex(server_key)?,
                from_hex(client_salt)?,
                from_hex(server_salt)?,
            ],
            room: room.parse().ok()?,
        },
        ["write-tunneled-dtls", room, id, dtls] => {
            TunneledDtls { id: from_hex(id)?, dtls: from_hex(dtls)?, room: room.parse().ok()? }
        }
        ["wrap", room, key, plaintext] => {
            Wrap { key: from_hex(key)?, plaintext: from_hex(plaintext)?, room: room.parse().ok()? }
        }
        ["unwrap", room, key, ciphertext] => {
            Unwrap { key: from_hex(key)?, ciphertext: from_hex(ciphertext)?, room: room.parse().ok()? }
        }
        ["index", roc, highest, sequence] => {
            Index { roc: roc.parse().ok()?, highest: highest.parse().ok()?, sequence: sequence.parse().ok()? }
        }
        ["write-endpoint-disconnect", room, id] => EndpointDisconnect { id: from_hex(id)?, room: room.parse().ok()? },
        _ => return None,
    })
}
