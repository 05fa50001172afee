//! A lookup that keeps an index of the live records, sorted by endpoint.

use crate::table::{Lookup, Record, PLACES};

#[derive(Clone, Copy)]
struct Entry {
    endpoint: u32,
    place: u32,
}

#[derive(Clone, Copy)]
pub struct Sorted {
    count: usize,
    entries: [Entry; PLACES],
}

impl Sorted {
    fn search(&self, endpoint: u32) -> Result<usize, usize> {
        self.entries[..self.count].binary_search_by_key(&endpoint, |e| e.endpoint)
    }
}

impl Lookup for Sorted {
    const EMPTY: Self = Sorted {
        count: 0,
        entries: [Entry {
            endpoint: 0,
            place: 0,
        }; PLACES],
    };

    type Gap = usize;

    fn find(&self, _: &[Record; PLACES], endpoint: u32) -> Option<usize> {
        let i = self.search(endpoint).ok()?;
        Some(self.entries[i].place as usize)
    }

    // An opening keeps the states of all records in registers: inlined into it, the search would keep
    // its own variables on the stack, and be much slower.
    #[inline(never)]
    fn gap(&self, _: &[Record; PLACES], endpoint: u32) -> Option<usize> {
        self.search(endpoint).err()
    }

    fn insert(&mut self, gap: usize, endpoint: u32, place: usize) {
        self.entries.copy_within(gap..self.count, gap + 1);
        self.entries[gap] = Entry {
            endpoint,
            place: place as u32,
        };
        self.count += 1;
    }

    fn remove(&mut self, endpoint: u32) {
        if let Ok(i) = self.search(endpoint) {
            self.entries.copy_within(i + 1..self.count, i);
            self.count -= 1;
        }
    }

    fn count(&self, _: &[Record; PLACES]) -> usize {
        self.count
    }
}
