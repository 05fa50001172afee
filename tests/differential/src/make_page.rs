//! Makes pages: of random tables, damaged as entries and as octets, and random octets of nearly a page's length.

use crate::case::Case;
use crate::page::{length, Entry, PLACES};
use crate::random::Random;

pub fn page(random: &mut Random) -> Case {
    if random.once_in(8) {
        return Case::Page { page: noise(random), ask: ask(random, PLACES) };
    }
    let mut entries = table(random);
    for _ in 0..random.pick(&[0, 0, 0, 1, 1, 2]) {
        disorder(random, &mut entries);
    }
    let page = damaged(random, &entries);
    Case::Page { page, ask: ask(random, entries.len()) }
}

fn damaged(random: &mut Random, entries: &[Entry]) -> Vec<u8> {
    let mut page = lay_out(entries);
    for _ in 0..random.pick(&[0, 0, 0, 1, 1, 2]) {
        damage(random, &mut page, entries.len());
    }
    page
}

/// An entry number: one that a page of so many has or just has not; one with the same low bits; any.
fn ask(random: &mut Random, count: usize) -> usize {
    let known = random.below(count + 2);
    match random.below(10) {
        0 => known + (1 << 8),
        1 => known + (1 << 16),
        2 => known + (1 << 32),
        3 => known + (1 << 63),
        4 => usize::MAX - known,
        5 => random.next() as usize,
        _ => known,
    }
}

/// The low `width` bits of a number, most significant first.
fn put(bits: &mut Vec<u8>, number: u32, width: usize) {
    bits.extend((0..width).rev().map(|bit| (number >> bit & 1) as u8));
}

/// Entries as a page has them, also where no table has them; of a count and a place the low bits.
pub fn lay_out(entries: &[Entry]) -> Vec<u8> {
    let mut bits = Vec::new();
    put(&mut bits, entries.len() as u32, 6);
    for entry in entries {
        put(&mut bits, entry.place, 5);
        put(&mut bits, entry.keyed as u32, 1);
        put(&mut bits, entry.endpoint, 32);
    }
    bits.resize(bits.len().div_ceil(8) * 8, 0);
    bits.chunks(8).map(|eight| eight.iter().fold(0, |octet, bit| octet << 1 | bit)).collect()
}

/// What some table may show, but that endpoints from a small set may be there twice.
fn table(random: &mut Random) -> Vec<Entry> {
    let any = random.below(PLACES + 1);
    let count = random.pick(&[0, 1, 1, 2, 3, 31, 32, any, any, any]);
    let mut places: Vec<u32> = (0..PLACES as u32).collect();
    while places.len() > count {
        places.remove(random.below(places.len()));
    }
    let few = random.once_in(4);
    let endpoint = |random: &mut Random| if few { random.below(300) as u32 } else { random.next() as u32 };
    places.iter().map(|&place| Entry { place, keyed: random.once_in(2), endpoint: endpoint(random) }).collect()
}

/// One thing that no table shows, or that another one shows.
fn disorder(random: &mut Random, entries: &mut Vec<Entry>) {
    let n = entries.len();
    if n == 0 {
        return entries.push(Entry { place: 31, keyed: true, endpoint: 0 });
    }
    let (one, other) = (random.below(n), random.below(n));
    match random.below(7) {
        0 => entries.swap(one, other),
        1 => entries[one].endpoint = entries[other].endpoint,
        2 => entries[one].endpoint = entries[other].endpoint ^ 1 << random.below(32),
        3 => entries[one].endpoint = random.pick(&[0, 1, 1 << 31, u32::MAX]),
        4 => entries[one].place = entries[other].place,
        5 => entries[one].place = random.below(PLACES) as u32,
        // An entry more; of 32 entries, a count of 33.
        _ => entries.insert(one, Entry { endpoint: random.next() as u32, ..entries[other] }),
    }
}

/// One thing that goes wrong with a page of so many entries.
fn damage(random: &mut Random, page: &mut Vec<u8>, count: usize) {
    let n = page.len();
    if n == 0 {
        return;
    }
    let at = random.below(n);
    match random.below(8) {
        0 => page[at] ^= 1 << random.below(8),
        1 => page[at] = random.octet(),
        2 => page[n - 1] |= 1 << random.below(7),
        3 => page.truncate(n - 1),
        4 => page.truncate(at),
        5 => page.push(random.pick(&[0, 0, 1, 128, 255])),
        6 => page.extend(std::iter::repeat_n(0, random.within(1, 10))),
        _ => {
            let near = [count + 1, count.wrapping_sub(1), 32, 33, 63];
            page[0] = page[0] & 3 | (random.pick(&near) % 64 << 2) as u8;
        }
    }
}

/// Random octets of about the length of so many entries, often with that count.
fn noise(random: &mut Random) -> Vec<u8> {
    let count = random.below(PLACES + 3);
    let n = match random.below(6) {
        0 => random.below(3),
        1 => length(count) - 1,
        2 => length(count) + 1,
        _ => length(count),
    };
    let mut page = random.octets(n);
    if !page.is_empty() && !random.once_in(4) {
        page[0] = page[0] & 3 | (count << 2) as u8;
    }
    page
}
