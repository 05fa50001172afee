//! The rules of sorting, messages and the tag, written from RFC 9185, RFC 8870, RFC 7983 (sorting) and documents 01 and
//! 02 alone. Nothing here is taken from the library; every number below stands in one of those papers, and the kinds'
//! own in shawm.h. The rules of the status page are in page.rs, those of the key wrap in keywrap.rs, those of the index in
//! index.rs.
//!
//! Each answer comes with a `Why`, finer than the answer, by which the tally sees that every branch of the
//! papers was reached.

/// RFC 9185, section 6.1: `opaque uuid[16]`.
pub const UUID: usize = 16;
/// Document 01: "Our limit is a body of 4,096 octets, read or written."
pub const BODY_LIMIT: usize = 4096;

/// An answer of a call that can refuse.
#[derive(Clone, Copy, PartialEq, Eq, Debug)]
pub enum Answer {
    Value(u32),
    Refused(u8),
}

macro_rules! whys {
    ($($name:ident,)*) => {
        /// What led to an answer.
        #[derive(Clone, Copy, PartialEq, Eq, Debug)]
        pub enum Why { $($name,)* }

        impl Why {
            pub const ALL: &'static [Why] = &[$(Why::$name,)*];
        }
    };
}

whys! {
    SortEmpty,
    SortStun,
    SortDtls,
    SortRtp,
    SortOther,
    SortZrtp,
    SortTurnChannel,
    ReadNoHeader,
    ReadSupportedProfiles,
    ReadUnsupportedVersion,
    ReadUnsupportedVersionOverLimit,
    ReadMediaKeys,
    ReadMediaKeysNoMki,
    ReadTunneledDtls,
    ReadEndpointDisconnect,
    ReadVersionOfNoLength,
    ReadVersionNotThere,
    ReadOversize,
    ReadNotWhole,
    ReadUnlisted,
    ReadBadSupportedProfiles,
    ReadBadMediaKeys,
    ReadBadTunneledDtls,
    ReadBadEndpointDisconnect,
    TagEmpty,
    TagShort,
    TagFull,
    TagExtension,
    TagTypeOne,
    TagNoRoomForLength,
    TagLengthLow,
    TagLengthHigh,
    TagLengthBeyondPacket,
    WriteSupportedProfiles,
    WriteUnsupportedVersion,
    WriteMediaKeys,
    WriteTunneledDtls,
    WriteEndpointDisconnect,
    WriteProfilesNone,
    WriteProfilesOdd,
    WriteProfilesBeyondLength,
    WriteProfilesOversize,
    WriteProfilesNoRoom,
    WriteVersionNoRoom,
    WriteKeysBadIdentifier,
    WriteKeysFieldShort,
    WriteKeysFieldLong,
    WriteKeysNoRoom,
    WriteDtlsBadIdentifier,
    WriteDtlsNone,
    WriteDtlsBeyondLength,
    WriteDtlsOversize,
    WriteDtlsNoRoom,
    WriteDisconnectBadIdentifier,
    WriteDisconnectNoRoom,
    PageOfNone,
    PageOpenEntry,
    PageKeyedEntry,
    PageNumberBeyond,
    PageWithoutCount,
    PageCountAbove,
    PageShort,
    PageLong,
    PageFilling,
    PagePlaceTwice,
    PagePlaceFalls,
    PageEndpointTwice,
    WrapOneBlock,
    WrapRegisters,
    WrapKeyLength,
    WrapEmpty,
    WrapLong,
    WrapNoRoom,
    UnwrapOneBlock,
    UnwrapRegisters,
    UnwrapKeyLength,
    UnwrapShort,
    UnwrapLong,
    UnwrapNotRegisters,
    UnwrapMark,
    UnwrapLengthLow,
    UnwrapLengthHigh,
    UnwrapPadding,
    UnwrapNoRoom,
    IndexFirst,
    IndexLast,
    IndexSameAgain,
    IndexSameKept,
    IndexSameMoved,
    IndexSameFarBelow,
    IndexSameFarAbove,
    IndexTieBelow,
    IndexTieBelowAtLastRoc,
    IndexTieAbove,
    IndexTieAboveAtFirstRoc,
    IndexOneLess,
    IndexOneLessByOne,
    IndexOneLessIsFirstRoc,
    IndexOneMore,
    IndexOneMoreByOne,
    IndexOneMoreIsLastRoc,
    IndexNotYet,
    IndexNotYetByOne,
    IndexSpent,
    IndexSpentByOne,
}

// ---------------------------------------------------------------- RFC 7983, section 7

/// STUN 0, DTLS 1, RTP or RTCP 2, Other 3, ZRTP 4, TURN channel 5.
pub fn sort(packet: &[u8]) -> (Answer, Why) {
    let Some(first) = packet.first() else {
        return (Answer::Refused(19), Why::SortEmpty);
    };
    // The ranges as document 02 lists them.
    let (kind, why) = match first {
        0..=3 => (0, Why::SortStun),
        16..=19 => (4, Why::SortZrtp),
        20..=63 => (1, Why::SortDtls),
        64..=79 => (5, Why::SortTurnChannel),
        128..=191 => (2, Why::SortRtp),
        _ => (3, Why::SortOther),
    };
    (Answer::Value(kind), why)
}

// ---------------------------------------------------------------- RFC 9185, section 6, reading

/// A field that is there: its first octet and its length.
pub type Place = Option<(usize, usize)>;

#[derive(Clone, Debug)]
pub struct Reading {
    /// 0 more needed, 1 to 5 the accepted type.
    pub answer: Answer,
    pub why: Why,
    pub taken: usize,
    /// By field number; 0 is no field. 1 identifier, 2 profile list, 3 MKI, 4 client key, 5 server key,
    /// 6 client salt, 7 server salt, 8 DTLS octets.
    pub places: [Place; 9],
    pub version: Option<u8>,
    pub profile: Option<u16>,
}

impl Reading {
    fn new(answer: Answer, why: Why, taken: usize) -> Reading {
        Reading { answer, why, taken, places: [None; 9], version: None, profile: None }
    }
}

/// Takes fields off the front of a body, as the presentation language of RFC 8446, section 3, lays them out.
/// `None` where the body ends too early.
struct Cursor<'a> {
    octets: &'a [u8],
    at: usize,
    end: usize,
}

impl Cursor<'_> {
    fn fixed(&mut self, n: usize) -> Option<(usize, usize)> {
        if n > self.end - self.at {
            return None;
        }
        let place = (self.at, n);
        self.at += n;
        Some(place)
    }

    fn number(&mut self, width: usize) -> Option<usize> {
        let (start, n) = self.fixed(width)?;
        Some(self.octets[start..start + n].iter().fold(0, |sum, &o| sum * 256 + o as usize))
    }

    /// `opaque field<least..2^(8 * width) - 1>`
    fn vector(&mut self, width: usize, least: usize) -> Option<(usize, usize)> {
        let n = self.number(width)?;
        if n < least {
            return None;
        }
        self.fixed(n)
    }

    /// A body must end where its last field ends.
    fn finish(&self) -> Option<()> {
        (self.at == self.end).then_some(())
    }
}

/// The reading steps 1 to 4 of document 01.
pub fn read(octets: &[u8]) -> Reading {
    use Answer::{Refused, Value};
    let n = octets.len();
    // Step 1.
    if n < 3 {
        return Reading::new(Value(0), Why::ReadNoHeader, 0);
    }
    let kind = octets[0];
    let length = u16::from_be_bytes([octets[1], octets[2]]) as usize;
    if kind == 2 {
        return unsupported_version(octets, length);
    }
    // Step 3.
    if length > BODY_LIMIT {
        return Reading::new(Refused(2), Why::ReadOversize, 0);
    }
    let whole = 3 + length;
    if n < whole {
        return Reading::new(Value(0), Why::ReadNotWhole, 0);
    }
    // Step 4.
    if !(1..=5).contains(&kind) {
        return Reading::new(Refused(3), Why::ReadUnlisted, whole);
    }
    let body = Cursor { octets, at: 3, end: whole };
    let (read, bad) = match kind {
        1 => (supported_profiles(body), Why::ReadBadSupportedProfiles),
        3 => (media_keys(body), Why::ReadBadMediaKeys),
        4 => (tunneled_dtls(body), Why::ReadBadTunneledDtls),
        _ => (endpoint_disconnect(body), Why::ReadBadEndpointDisconnect),
    };
    match read {
        Some(mut reading) => {
            reading.taken = whole;
            reading
        }
        None => Reading::new(Refused(5), bad, whole),
    }
}

/// Step 2: four octets are enough, and every lent one is taken.
fn unsupported_version(octets: &[u8], length: usize) -> Reading {
    if length == 0 {
        return Reading::new(Answer::Refused(5), Why::ReadVersionOfNoLength, 3);
    }
    let Some(&version) = octets.get(3) else {
        return Reading::new(Answer::Value(0), Why::ReadVersionNotThere, 0);
    };
    let why = if length > BODY_LIMIT { Why::ReadUnsupportedVersionOverLimit } else { Why::ReadUnsupportedVersion };
    let mut reading = Reading::new(Answer::Value(2), why, octets.len());
    reading.version = Some(version);
    reading
}

fn supported_profiles(mut body: Cursor) -> Option<Reading> {
    let mut reading = Reading::new(Answer::Value(1), Why::ReadSupportedProfiles, 0);
    reading.version = Some(body.number(1)? as u8);
    let list = body.vector(2, 2)?;
    if list.1 % 2 == 1 {
        return None;
    }
    reading.places[2] = Some(list);
    body.finish()?;
    Some(reading)
}

fn media_keys(mut body: Cursor) -> Option<Reading> {
    let mut reading = Reading::new(Answer::Value(3), Why::ReadMediaKeys, 0);
    reading.places[1] = Some(body.fixed(UUID)?);
    reading.profile = Some(body.number(2)? as u16);
    for (field, least) in [(3, 0), (4, 1), (5, 1), (6, 1), (7, 1)] {
        reading.places[field] = Some(body.vector(1, least)?);
    }
    body.finish()?;
    if reading.places[3].unwrap().1 == 0 {
        reading.why = Why::ReadMediaKeysNoMki;
    }
    Some(reading)
}

fn tunneled_dtls(mut body: Cursor) -> Option<Reading> {
    let mut reading = Reading::new(Answer::Value(4), Why::ReadTunneledDtls, 0);
    reading.places[1] = Some(body.fixed(UUID)?);
    reading.places[8] = Some(body.vector(2, 1)?);
    body.finish()?;
    Some(reading)
}

fn endpoint_disconnect(mut body: Cursor) -> Option<Reading> {
    let mut reading = Reading::new(Answer::Value(5), Why::ReadEndpointDisconnect, 0);
    reading.places[1] = Some(body.fixed(UUID)?);
    body.finish()?;
    Some(reading)
}

// ---------------------------------------------------------------- RFC 9185, section 6, writing

/// The message to be written, or the refusal.
pub type Written = (Result<Vec<u8>, u8>, Why);

/// Type octet, length, body; then 2 and 13, the last two in the order of a writer.
fn message(kind: u8, body: Vec<u8>, room: usize, whys: (Why, Why, Why)) -> Written {
    let (accepted, oversize, no_room) = whys;
    if body.len() > BODY_LIMIT {
        return (Err(2), oversize);
    }
    let mut whole = vec![kind];
    whole.extend((body.len() as u16).to_be_bytes());
    whole.extend(body);
    if whole.len() > room {
        return (Err(13), no_room);
    }
    (Ok(whole), accepted)
}

pub fn write_supported_profiles(version: u8, list: &[u8], room: usize) -> Written {
    if list.len() < 2 {
        return (Err(5), Why::WriteProfilesNone);
    }
    if list.len() % 2 == 1 {
        return (Err(5), Why::WriteProfilesOdd);
    }
    let Ok(length) = u16::try_from(list.len()) else {
        return (Err(5), Why::WriteProfilesBeyondLength);
    };
    let body = [&[version][..], &length.to_be_bytes(), list].concat();
    message(1, body, room, (Why::WriteSupportedProfiles, Why::WriteProfilesOversize, Why::WriteProfilesNoRoom))
}

pub fn write_unsupported_version(version: u8, room: usize) -> Written {
    // One octet never exceeds the limit, so the middle reason cannot be given.
    message(2, vec![version], room, (Why::WriteUnsupportedVersion, Why::WriteVersionNoRoom, Why::WriteVersionNoRoom))
}

/// `fields`: MKI, client key, server key, client salt, server salt.
pub fn write_media_keys(id: &[u8], profile: u16, fields: [&[u8]; 5], room: usize) -> Written {
    if id.len() != UUID {
        return (Err(20), Why::WriteKeysBadIdentifier);
    }
    let mut body = id.to_vec();
    body.extend(profile.to_be_bytes());
    for (i, field) in fields.iter().enumerate() {
        let least = if i == 0 { 0 } else { 1 };
        if field.len() < least {
            return (Err(5), Why::WriteKeysFieldShort);
        }
        let Ok(length) = u8::try_from(field.len()) else {
            return (Err(5), Why::WriteKeysFieldLong);
        };
        body.push(length);
        body.extend_from_slice(field);
    }
    // 16 + 2 + 5 * 256 octets never exceed the limit, so the middle reason cannot be given.
    message(3, body, room, (Why::WriteMediaKeys, Why::WriteKeysNoRoom, Why::WriteKeysNoRoom))
}

pub fn write_tunneled_dtls(id: &[u8], dtls: &[u8], room: usize) -> Written {
    if id.len() != UUID {
        return (Err(20), Why::WriteDtlsBadIdentifier);
    }
    if dtls.is_empty() {
        return (Err(5), Why::WriteDtlsNone);
    }
    let Ok(length) = u16::try_from(dtls.len()) else {
        return (Err(5), Why::WriteDtlsBeyondLength);
    };
    let body = [id, &length.to_be_bytes(), dtls].concat();
    message(4, body, room, (Why::WriteTunneledDtls, Why::WriteDtlsOversize, Why::WriteDtlsNoRoom))
}

pub fn write_endpoint_disconnect(id: &[u8], room: usize) -> Written {
    if id.len() != UUID {
        return (Err(20), Why::WriteDisconnectBadIdentifier);
    }
    message(
        5,
        id.to_vec(),
        room,
        (Why::WriteEndpointDisconnect, Why::WriteDisconnectNoRoom, Why::WriteDisconnectNoRoom),
    )
}

// ---------------------------------------------------------------- RFC 8870, section 4.1

#[derive(Clone, Debug)]
pub struct Tag {
    /// The type octet.
    pub answer: Answer,
    pub why: Why,
    /// By part number; 0 is no part. 1 front, 2 ciphertext, 3 extension data.
    pub parts: [Place; 4],
    /// By field number; 0 is no field. 1 SPI, 2 epoch.
    pub numbers: [Option<u16>; 3],
}

impl Tag {
    fn none(why: Why) -> Tag {
        Tag { answer: Answer::Refused(18), why, parts: [None; 4], numbers: [None; 3] }
    }
}

/// Read from the last octet backwards, by figure 3 of RFC 8870: at each step `rest` is what stands in front.
pub fn tag(packet: &[u8]) -> Tag {
    let Some((&kind, rest)) = packet.split_last() else {
        return Tag::none(Why::TagEmpty);
    };
    // ShortEKTField = EKTMsgTypeShort
    if kind == 0 {
        return Tag {
            answer: Answer::Value(0),
            why: Why::TagShort,
            parts: [None, Some((0, rest.len())), None, None],
            numbers: [None; 3],
        };
    }
    if kind == 1 {
        return Tag::none(Why::TagTypeOne);
    }
    let Some((rest, length)) = last_two(rest) else {
        return Tag::none(Why::TagNoRoomForLength);
    };
    // EKTCiphertext = 1*251BYTE, with SPI, Epoch, length and type; ExtensionData = 1*1024BYTE, with length and type.
    let (least, most) = if kind == 2 { (1 + 7, 251 + 7) } else { (1 + 3, 1024 + 3) };
    let length = length as usize;
    if length < least {
        return Tag::none(Why::TagLengthLow);
    }
    if length > most {
        return Tag::none(Why::TagLengthHigh);
    }
    if length > packet.len() {
        return Tag::none(Why::TagLengthBeyondPacket);
    }
    let front = packet.len() - length;
    let mut tag = Tag {
        answer: Answer::Value(kind as u32),
        why: Why::TagExtension,
        parts: [None, Some((0, front)), None, None],
        numbers: [None; 3],
    };
    if kind == 2 {
        let (rest, epoch) = last_two(rest).unwrap();
        let (rest, spi) = last_two(rest).unwrap();
        tag.why = Why::TagFull;
        tag.parts[2] = Some((front, rest.len() - front));
        tag.numbers = [None, Some(spi), Some(epoch)];
    } else {
        tag.parts[3] = Some((front, rest.len() - front));
    }
    tag
}

fn last_two(octets: &[u8]) -> Option<(&[u8], u16)> {
    let (rest, two) = octets.split_last_chunk::<2>()?;
    Some((rest, u16::from_be_bytes(*two)))
}
