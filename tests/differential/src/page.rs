//! The rules of the status page, written from document 02, order 1, alone.

use crate::paper::{Answer, Why};

/// "6 bits for the number of live associations"
const COUNT_BITS: usize = 6;
/// "5 bits place, 1 bit state (1 is keyed), 32 bits endpoint"
const ENTRY_BITS: usize = 5 + 1 + 32;
/// Document 01, refusal 10: "32 live associations".
pub const PLACES: usize = 32;

#[derive(Clone, Copy, PartialEq, Eq, Debug)]
pub struct Entry {
    pub place: u32,
    pub keyed: bool,
    pub endpoint: u32,
}

/// The entries, or the reason why no table gives these octets.
pub type Page = Result<Vec<Entry>, Why>;

/// How many octets a page of so many entries has.
pub fn length(count: usize) -> usize {
    (COUNT_BITS + count * ENTRY_BITS).div_ceil(8)
}

/// The number in `width` bits from bit `from` on, most significant first.
fn number(page: &[u8], from: usize, width: usize) -> u32 {
    (from..from + width).fold(0, |number, bit| number << 1 | (page[bit / 8] >> (7 - bit % 8) & 1) as u32)
}

fn entry(page: &[u8], index: usize) -> Entry {
    let at = COUNT_BITS + index * ENTRY_BITS;
    Entry { place: number(page, at, 5), keyed: number(page, at + 5, 1) == 1, endpoint: number(page, at + 6, 32) }
}

pub fn read(page: &[u8]) -> Page {
    if page.is_empty() {
        return Err(Why::PageWithoutCount);
    }
    let count = number(page, 0, COUNT_BITS) as usize;
    if count > PLACES {
        return Err(Why::PageCountAbove);
    }
    if page.len() < length(count) {
        return Err(Why::PageShort);
    }
    if page.len() > length(count) {
        return Err(Why::PageLong);
    }
    // "zero bits fill the last octet"
    let behind = COUNT_BITS + count * ENTRY_BITS;
    if number(page, behind, 8 * page.len() - behind) != 0 {
        return Err(Why::PageFilling);
    }
    of_a_table((0..count).map(|index| entry(page, index)).collect())
}

/// "places rise, endpoints differ"
fn of_a_table(entries: Vec<Entry>) -> Page {
    if entries.windows(2).any(|two| two[0].place == two[1].place) {
        return Err(Why::PagePlaceTwice);
    }
    if entries.windows(2).any(|two| two[0].place > two[1].place) {
        return Err(Why::PagePlaceFalls);
    }
    let mut endpoints: Vec<u32> = entries.iter().map(|entry| entry.endpoint).collect();
    endpoints.sort_unstable();
    if endpoints.windows(2).any(|two| two[0] == two[1]) {
        return Err(Why::PageEndpointTwice);
    }
    Ok(entries)
}

/// "it gives the count": or refusal 29.
pub fn count(page: &Page) -> Answer {
    page.as_ref().map_or(Answer::Refused(29), |entries| Answer::Value(entries.len() as u32))
}

/// The nth entry, counted from 0, as the interface gives it: twice the place and 1 for keyed, or 29; and the endpoint,
/// or 0.
pub fn nth(page: &Page, number: usize) -> (Answer, u32) {
    match page.as_ref().ok().and_then(|entries| entries.get(number)) {
        Some(entry) => (Answer::Value(2 * entry.place + entry.keyed as u32), entry.endpoint),
        None => (Answer::Refused(29), 0),
    }
}

/// The reason of the page, or of the answer for this entry.
pub fn why(page: &Page, number: usize) -> Why {
    match page {
        Err(why) => *why,
        Ok(entries) if entries.is_empty() => Why::PageOfNone,
        Ok(entries) => match entries.get(number) {
            Some(entry) if entry.keyed => Why::PageKeyedEntry,
            Some(_) => Why::PageOpenEntry,
            None => Why::PageNumberBeyond,
        },
    }
}
