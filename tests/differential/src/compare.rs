//! Runs one case through the library and through the paper's rules, and compares everything that the library
//! answers, the octets that it wrote, those behind them, and the octets that it was lent to read.

use crate::case::Case;
use crate::index;
use crate::keywrap;
use crate::lent::{Edge, Memory};
use crate::library::{self, *};
use crate::page;
use crate::paper::{self, Why};
use crate::random::Random;
use crate::third::Third;

/// The longest stretch of a case: a key longer than two octets can say, whose length has the low bits of a right one.
pub const LONGEST: usize = 65_536 + 16;
/// The largest output of a case.
pub const LARGEST: usize = LONGEST + 128;

/// What was asked, and the two answers: `who` is the library, OpenSSL, or the second rule of the index.
pub struct Disagreement {
    pub asked: String,
    pub who: &'static str,
    pub answer: String,
    pub paper: String,
}

type Outcome = Result<(), Disagreement>;

pub struct Bench {
    lent: Vec<Memory>,
    out: Memory,
    poison: Vec<u8>,
    /// Answers of the library that were compared.
    pub answers: u64,
    pub third: Third,
}

/// Of every field and part number that the interface knows, and those between and around them.
const LAST_ASKED: u32 = 18;
/// Entry numbers whose low bits, or whose bits into a page, are those of an entry.
const HUGE: [usize; 4] = [1 << 32, 1 << 63, usize::MAX, usize::MAX / 38 + 1];

impl Bench {
    pub fn new() -> Bench {
        Bench {
            lent: (0..6).map(|_| Memory::new(LONGEST)).collect(),
            out: Memory::new(LARGEST),
            poison: Random::new(0x0DD).octets(LARGEST + 256),
            answers: 0,
            third: Third::new(),
        }
    }

    /// `shift` moves the poison, so that no octet behind a written message keeps one value over all cases.
    pub fn run(&mut self, case: &Case, edge: Edge, shift: u8) -> Result<Why, Disagreement> {
        match case {
            Case::Sort { packet } => {
                let at = self.lent[0].put(packet, edge);
                let why = self.sort(at, packet)?;
                unchanged("packet", at, packet)?;
                Ok(why)
            }
            Case::Read { octets, ask } => {
                let at = self.lent[0].put(octets, edge);
                let why = self.read(at, octets, *ask)?;
                unchanged("octets", at, octets)?;
                Ok(why)
            }
            Case::Tag { packet, ask } => {
                let at = self.lent[0].put(packet, edge);
                let why = self.tag(at, packet, *ask)?;
                unchanged("packet", at, packet)?;
                Ok(why)
            }
            Case::Page { page, ask } => {
                let at = self.lent[0].put(page, edge);
                let why = self.page(at, page, *ask)?;
                unchanged("page", at, page)?;
                Ok(why)
            }
            Case::Index { roc, highest, sequence } => {
                let above = self.above(edge, shift);
                self.index(*roc, *highest, *sequence, above)
            }
            _ => self.write(case, edge, shift),
        }
    }

    pub fn sort(&mut self, at: *const u8, packet: &[u8]) -> Result<Why, Disagreement> {
        let (answer, why) = paper::sort(packet);
        self.same(|| "shawm_sort".to_string(), unsafe { shawm_sort(at, packet.len()) }, as_number(answer))?;
        Ok(why)
    }

    /// The answer and the octets taken alone.
    pub fn read_front(&mut self, at: *const u8, octets: &[u8]) -> Result<paper::Reading, Disagreement> {
        let n = octets.len();
        let reading = paper::read(octets);
        self.same(|| "shawm_read".to_string(), unsafe { shawm_read(at, n) }, as_number(reading.answer))?;
        self.same(|| "shawm_taken".to_string(), unsafe { shawm_taken(at, n) }, reading.taken)?;
        Ok(reading)
    }

    pub fn read(&mut self, at: *const u8, octets: &[u8], ask: u32) -> Result<Why, Disagreement> {
        let n = octets.len();
        let reading = self.read_front(at, octets)?;
        for field in (0..=LAST_ASKED).chain([ask]) {
            let (start, length) = reading.places.get(field as usize).copied().flatten().unwrap_or((0, 0));
            let number = match field {
                16 => reading.version.unwrap_or(0) as u32,
                17 => reading.profile.unwrap_or(0) as u32,
                _ => 0,
            };
            self.same(|| format!("shawm_field_start of {field}"), unsafe { shawm_field_start(at, n, field) }, start)?;
            self.same(
                || format!("shawm_field_length of {field}"),
                unsafe { shawm_field_length(at, n, field) },
                length,
            )?;
            self.same(
                || format!("shawm_field_number of {field}"),
                unsafe { shawm_field_number(at, n, field) },
                number,
            )?;
        }
        Ok(reading.why)
    }

    /// The answer and the length of the front alone.
    pub fn tag_front(&mut self, at: *const u8, packet: &[u8]) -> Result<paper::Tag, Disagreement> {
        let n = packet.len();
        let tag = paper::tag(packet);
        let front = tag.parts[1].unwrap_or((0, 0)).1;
        self.same(|| "shawm_tag".to_string(), unsafe { shawm_tag(at, n) }, as_number(tag.answer))?;
        self.same(|| "shawm_tag_length of 1".to_string(), unsafe { shawm_tag_length(at, n, 1) }, front)?;
        Ok(tag)
    }

    pub fn tag(&mut self, at: *const u8, packet: &[u8], ask: u32) -> Result<Why, Disagreement> {
        let n = packet.len();
        let tag = self.tag_front(at, packet)?;
        for number in (0..=LAST_ASKED).chain([ask]) {
            let (start, length) = tag.parts.get(number as usize).copied().flatten().unwrap_or((0, 0));
            let value = tag.numbers.get(number as usize).copied().flatten().unwrap_or(0) as u32;
            self.same(|| format!("shawm_tag_start of {number}"), unsafe { shawm_tag_start(at, n, number) }, start)?;
            self.same(|| format!("shawm_tag_length of {number}"), unsafe { shawm_tag_length(at, n, number) }, length)?;
            self.same(|| format!("shawm_tag_number of {number}"), unsafe { shawm_tag_number(at, n, number) }, value)?;
        }
        Ok(tag.why)
    }

    /// Every entry of a page and the number behind the last, of what is no page the first two, and numbers far beyond.
    pub fn page(&mut self, at: *const u8, octets: &[u8], ask: usize) -> Result<Why, Disagreement> {
        let n = octets.len();
        let page = page::read(octets);
        let last = page.as_ref().map_or(1, |entries| entries.len());
        self.same(
            || "shawm_page_count".to_string(),
            unsafe { shawm_page_count(at, n) },
            as_number(page::count(&page)),
        )?;
        for number in (0..=last).chain(HUGE).chain([ask]) {
            let (entry, endpoint) = page::nth(&page, number);
            self.same(
                || format!("shawm_page_entry of {number}"),
                unsafe { shawm_page_entry(at, n, number) },
                as_number(entry),
            )?;
            self.same(
                || format!("shawm_page_endpoint of {number}"),
                unsafe { shawm_page_endpoint(at, n, number) },
                endpoint,
            )?;
        }
        Ok(page::why(&page, ask))
    }

    /// What stands in a register above a number that does not fill it: at Low nothing, at High poison.
    fn above(&self, edge: Edge, shift: u8) -> u64 {
        match edge {
            Edge::Low => 0,
            Edge::High => u64::from_le_bytes(self.poison[shift as usize..][..8].try_into().unwrap()),
        }
    }

    /// By the first rule, once the second has said the same.
    pub fn index(&mut self, roc: u32, highest: u16, sequence: u16, above: u64) -> Result<Why, Disagreement> {
        let paper = index::nearest(roc, highest, sequence);
        let second = index::appendix_a(roc, highest, sequence);
        if second != paper {
            let asked = "the two rules of the index, of which one is wrong".to_string();
            let (answer, paper) = (format!("{second:?}"), format!("{paper:?}, by the nearest index"));
            return Err(Disagreement { asked, who: "appendix A", answer, paper });
        }
        self.index_said(library::index(roc, highest, sequence, above), &paper)?;
        Ok(index::why(roc, highest, sequence, &paper))
    }

    /// All four answers.
    pub fn index_said(&mut self, library: [u64; 4], paper: &index::Index) -> Outcome {
        const ASKED: [&str; 4] = ["estimate", "number", "kept_roc", "kept_highest"];
        let estimate = as_number(paper.estimate);
        let paper = [estimate.into(), paper.number, paper.roc.into(), paper.highest.into()];
        (0..4).try_for_each(|i| self.same(|| format!("shawm_index_{}", ASKED[i]), library[i], paper[i]))
    }

    fn write(&mut self, case: &Case, edge: Edge, shift: u8) -> Result<Why, Disagreement> {
        let (expected, why) = by_paper(case);
        let (inputs, room) = stretches(case);
        let mut lent = [std::ptr::null(); 6];
        for (i, input) in inputs.iter().enumerate() {
            lent[i] = self.lent[i].put(input, edge);
        }
        let out = match (room, edge) {
            (0, Edge::Low) => std::ptr::null_mut(),
            _ => self.out.at(room, edge),
        };
        let poison = shift as usize..shift as usize + room;
        unsafe { std::ptr::copy_nonoverlapping(self.poison[poison.clone()].as_ptr(), out, room) };

        let answer = by_library(case, &lent, out);
        let (number, message) = match &expected {
            Ok(message) => (message.len() as u32, &message[..]),
            Err(number) => (as_number(paper::Answer::Refused(*number)), &[][..]),
        };
        self.same(|| "the writer".to_string(), answer, number)?;
        written(out, room, message, &self.poison[poison])?;
        for (i, input) in inputs.iter().enumerate() {
            unchanged("a lent stretch", lent[i], input)?;
        }
        self.third.agree(case, &expected)?;
        Ok(why)
    }

    pub fn same<T: PartialEq + std::fmt::Debug>(
        &mut self,
        asked: impl FnOnce() -> String,
        library: T,
        paper: T,
    ) -> Outcome {
        self.answers += 1;
        if library == paper {
            return Ok(());
        }
        let (answer, paper) = (format!("{library:?}"), format!("{paper:?}"));
        Err(Disagreement { asked: asked(), who: "library", answer, paper })
    }
}

fn by_paper(case: &Case) -> paper::Written {
    match case {
        Case::SupportedProfiles { version, list, room } => paper::write_supported_profiles(*version, list, *room),
        Case::UnsupportedVersion { version, room } => paper::write_unsupported_version(*version, *room),
        Case::MediaKeys { id, profile, fields, room } => {
            paper::write_media_keys(id, *profile, fields.each_ref().map(|field| &field[..]), *room)
        }
        Case::TunneledDtls { id, dtls, room } => paper::write_tunneled_dtls(id, dtls, *room),
        Case::EndpointDisconnect { id, room } => paper::write_endpoint_disconnect(id, *room),
        Case::Wrap { key, plaintext, room } => keywrap::wrap(key, plaintext, *room),
        Case::Unwrap { key, ciphertext, room } => keywrap::unwrap(key, ciphertext, *room),
        Case::Sort { .. } | Case::Read { .. } | Case::Tag { .. } | Case::Page { .. } | Case::Index { .. } => {
            unreachable!("not a writer")
        }
    }
}

/// The stretches that a call reads, in the order of its parameters, and the length of its output.
fn stretches(case: &Case) -> (Vec<&[u8]>, usize) {
    match case {
        Case::SupportedProfiles { list, room, .. } => (vec![list], *room),
        Case::UnsupportedVersion { room, .. } => (vec![], *room),
        Case::MediaKeys { id, fields, room, .. } => {
            (std::iter::once(id).chain(fields).map(|stretch| &stretch[..]).collect(), *room)
        }
        Case::TunneledDtls { id, dtls, room } => (vec![id, dtls], *room),
        Case::EndpointDisconnect { id, room } => (vec![id], *room),
        Case::Wrap { key, plaintext, room } => (vec![key, plaintext], *room),
        Case::Unwrap { key, ciphertext, room } => (vec![key, ciphertext], *room),
        Case::Sort { .. } | Case::Read { .. } | Case::Tag { .. } | Case::Page { .. } | Case::Index { .. } => {
            unreachable!("not a writer")
        }
    }
}

fn by_library(case: &Case, lent: &[*const u8; 6], out: *mut u8) -> u32 {
    unsafe {
        match case {
            Case::SupportedProfiles { version, list, room } => {
                shawm_write_supported_profiles(*version, lent[0], list.len(), out, *room)
            }
            Case::UnsupportedVersion { version, room } => shawm_write_unsupported_version(*version, out, *room),
            Case::MediaKeys { id, profile, fields: f, room } => shawm_write_media_keys(
                lent[0],
                id.len(),
                *profile,
                lent[1],
                f[0].len(),
                lent[2],
                f[1].len(),
                lent[3],
                f[2].len(),
                lent[4],
                f[3].len(),
                lent[5],
                f[4].len(),
                out,
                *room,
            ),
            Case::TunneledDtls { id, dtls, room } => {
                shawm_write_tunneled_dtls(lent[0], id.len(), lent[1], dtls.len(), out, *room)
            }
            Case::EndpointDisconnect { id, room } => shawm_write_endpoint_disconnect(lent[0], id.len(), out, *room),
            Case::Wrap { key, plaintext, room } => shawm_wrap(lent[0], key.len(), lent[1], plaintext.len(), out, *room),
            Case::Unwrap { key, ciphertext, room } => {
                shawm_unwrap(lent[0], key.len(), lent[1], ciphertext.len(), out, *room)
            }
            Case::Sort { .. } | Case::Read { .. } | Case::Tag { .. } | Case::Page { .. } | Case::Index { .. } => {
                unreachable!("not a writer")
            }
        }
    }
}

/// The octets at a pointer that may be NULL or closed when there are none.
fn at<'a>(pointer: *const u8, n: usize) -> &'a [u8] {
    if n == 0 {
        return &[];
    }
    unsafe { std::slice::from_raw_parts(pointer, n) }
}

fn unchanged(name: &str, pointer: *const u8, before: &[u8]) -> Outcome {
    equal(|| format!("{name} after the call"), at(pointer, before.len()), before)
}

/// The message at the front of the output, and the poison behind it.
fn written(out: *const u8, room: usize, message: &[u8], poison: &[u8]) -> Outcome {
    let out = at(out, room);
    let front = message.len();
    equal(|| "octets written".to_string(), &out[..front], message)?;
    equal(|| format!("output behind octet {front}"), &out[front..], &poison[front..])
}

fn equal(asked: impl FnOnce() -> String, library: &[u8], paper: &[u8]) -> Outcome {
    if library == paper {
        return Ok(());
    }
    let first = library.iter().zip(paper).position(|(a, b)| a != b).unwrap();
    Err(Disagreement {
        asked: format!("{}, at {first}", asked()),
        who: "library",
        answer: format!("{:02x}", library[first]),
        paper: format!("{:02x}", paper[first]),
    })
}
