//! Reading the front of a lent stretch (document 01, "Tunnel messages").

pub const A: usize = 16;
pub const BODY_LIMIT: usize = 4096;

pub enum Front<'a> {
    More,
    /// Type 2 of length 0.
    EmptyVersion,
    Version(u8),
    /// A length above the limit.
    TooLong(u8),
    Whole(u8, &'a [u8]),
}

pub fn number16(octets: &[u8], at: usize) -> usize {
    usize::from(octets[at]) * 256 + usize::from(octets[at + 1])
}

pub fn front(octets: &[u8]) -> Front<'_> {
    if octets.len() < 3 {
        return Front::More;
    }
    let (kind, length) = (octets[0], number16(octets, 1));
    if kind == 2 {
        return match (length, octets.get(3)) {
            (0, _) => Front::EmptyVersion,
            (_, None) => Front::More,
            (_, Some(&version)) => Front::Version(version),
        };
    }
    if length > BODY_LIMIT {
        return Front::TooLong(kind);
    }
    match octets.get(3..3 + length) {
        None => Front::More,
        Some(body) => Front::Whole(kind, body),
    }
}

/// The fields of type 3 behind the identifier, whatever their lengths, and how many octets stand behind them.
pub struct MediaKeys<'a> {
    pub profile: u16,
    pub mki: &'a [u8],
    pub client_key: &'a [u8],
    pub server_key: &'a [u8],
    pub client_salt: &'a [u8],
    pub server_salt: &'a [u8],
    pub behind: usize,
}

fn field<'a>(rest: &mut &'a [u8]) -> Option<&'a [u8]> {
    let length = usize::from(*rest.first()?);
    let value = rest.get(1..1 + length)?;
    *rest = &rest[1 + length..];
    Some(value)
}

/// None where the body ends inside a field.
pub fn media_keys(body: &[u8]) -> Option<MediaKeys<'_>> {
    let mut rest = body.get(A + 2..)?;
    let (mki, client_key, server_key) = (field(&mut rest)?, field(&mut rest)?, field(&mut rest)?);
    let (client_salt, server_salt) = (field(&mut rest)?, field(&mut rest)?);
    Some(MediaKeys {
        profile: number16(body, A) as u16,
        mki,
        client_key,
        server_key,
        client_salt,
        server_salt,
        behind: rest.len(),
    })
}

impl MediaKeys<'_> {
    /// Whether these fields, with nothing behind them, are a good body.
    pub fn good(&self) -> bool {
        let least = [self.client_key, self.server_key, self.client_salt, self.server_salt];
        self.behind == 0 && least.iter().all(|field| !field.is_empty())
    }
}

/// Whether a whole body of a listed type matches its layout.
pub fn good_body(kind: u8, body: &[u8]) -> bool {
    match kind {
        1 => body.len() >= 5 && number16(body, 1) == body.len() - 3 && body.len() % 2 == 1,
        3 => media_keys(body).is_some_and(|keys| keys.good()),
        4 => body.len() > A + 2 && number16(body, A) == body.len() - A - 2,
        _ => body.len() == A,
    }
}
