//! The status page (document 02, order 1): written from the entries bit by bit, and read back by a reader that shares
//! nothing with the writer but the entry.

use crate::table::{Record, PLACES};

/// A live place, as the page shows it.
#[derive(Clone, Copy, PartialEq, Eq, Debug)]
pub struct Entry {
    pub place: usize,
    pub keyed: bool,
    pub endpoint: u32,
}

/// The live places, the lowest first.
pub fn entries(places: &[Option<Record>]) -> Vec<Entry> {
    let entry =
        |place: usize, record: &Record| Entry { place, keyed: record.keys.is_some(), endpoint: record.endpoint };
    places.iter().enumerate().filter_map(|(place, record)| record.as_ref().map(|record| entry(place, record))).collect()
}

/// The most significant bit first.
fn put(bits: &mut Vec<bool>, number: u32, width: usize) {
    bits.extend((0..width).rev().map(|at| number >> at & 1 == 1));
}

pub fn write(entries: &[Entry]) -> Vec<u8> {
    let mut bits = Vec::new();
    put(&mut bits, entries.len() as u32, 6);
    for entry in entries {
        put(&mut bits, entry.place as u32, 5);
        put(&mut bits, u32::from(entry.keyed), 1);
        put(&mut bits, entry.endpoint, 32);
    }
    let octet = |eight: &[bool]| (0..8).fold(0, |octet, at| octet << 1 | u8::from(eight.get(at) == Some(&true)));
    bits.chunks(8).map(octet).collect()
}

/// The number in `width` bits from bit `from` on; None where the page ends before them.
fn number(page: &[u8], from: usize, width: usize) -> Option<u64> {
    let last = (from + width).div_ceil(8);
    let octets = page.get(from / 8..last)?;
    let all = octets.iter().fold(0, |number, &octet| number << 8 | u64::from(octet));
    Some(all >> (8 * last - from - width) & ((1 << width) - 1))
}

fn entry(page: &[u8], index: usize) -> Option<Entry> {
    let at = 6 + 38 * index;
    Some(Entry {
        place: number(page, at, 5)? as usize,
        keyed: number(page, at + 5, 1)? == 1,
        endpoint: number(page, at + 6, 32)? as u32,
    })
}

/// The entries of a page that some table can give; None for all other octets.
pub fn read(page: &[u8]) -> Option<Vec<Entry>> {
    let count = number(page, 0, 6)? as usize;
    let behind = 6 + 38 * count;
    if count > PLACES || page.len() != behind.div_ceil(8) || number(page, behind, 8 * page.len() - behind)? != 0 {
        return None;
    }
    let entries = (0..count).map(|index| entry(page, index)).collect::<Option<Vec<Entry>>>()?;
    let rise = entries.windows(2).all(|two| two[0].place < two[1].place);
    let differ = (1..count).all(|at| entries[..at].iter().all(|before| before.endpoint != entries[at].endpoint));
    (rise && differ).then_some(entries)
}

/// Writes a page and holds it to the reader: it is read as these entries, and is no page with an octet more or less.
pub fn held(entries: &[Entry]) -> Vec<u8> {
    let mut page = write(entries);
    assert_eq!(read(&page).as_deref(), Some(entries), "the page is read as what was written");
    assert_eq!(read(&page[..page.len() - 1]), None, "one octet less");
    page.push(0);
    assert_eq!(read(&page), None, "one octet more");
    page.pop();
    page
}

/// One bit of a page changed: it is read as entries that are written so again, or as none. Gives how many were read.
fn one_bit_off(page: &[u8]) -> usize {
    let mut pages = 0;
    for bit in 0..8 * page.len() {
        let mut changed = page.to_vec();
        changed[bit / 8] ^= 0x80 >> (bit % 8);
        if let Some(entries) = read(&changed) {
            assert_eq!(write(&entries), changed, "the reader takes only what the writer gives");
            pages += 1;
        }
    }
    pages
}

/// Places that do not rise, and an endpoint twice: no table has them.
fn of_no_table() {
    for two in [[(5, 1), (5, 2)], [(6, 1), (5, 2)], [(5, 7), (6, 7)]] {
        let entries = two.map(|(place, endpoint)| Entry { place, keyed: true, endpoint });
        assert_eq!(read(&write(&entries)), None, "{entries:?}");
    }
}

/// Writer and reader on each other, before they judge the relay: worked octets, and every bit of pages of each length.
/// Gives how many changed pages were read and how many refused.
pub fn check() -> (usize, usize) {
    let worked = [(3, true, 0x0102_0304), (31, false, 0xFFFF_FFFE)];
    let worked = worked.map(|(place, keyed, endpoint)| Entry { place, keyed, endpoint });
    assert_eq!(held(&[]), [0]);
    // 000010, 00011 1 and the endpoint, 11111 0 and the endpoint, 000000.
    assert_eq!(held(&worked), [0x08, 0x70, 0x10, 0x20, 0x30, 0x4F, 0xBF, 0xFF, 0xFF, 0xFF, 0x80][..]);
    of_no_table();
    let (mut read, mut bits) = (0, 0);
    for count in 0..=PLACES {
        let full = (0..count).map(|at| Entry {
            place: at,
            keyed: at % 3 == 0,
            endpoint: 0x1234_5679u32.wrapping_mul(at as u32),
        });
        let page = held(&full.collect::<Vec<_>>());
        read += one_bit_off(&page);
        bits += 8 * page.len();
    }
    (read, bits - read)
}
