//! A lookup that keeps nothing: the records themselves are searched from the front.

use crate::table::{Lookup, Record, PLACES};

#[derive(Clone, Copy)]
pub struct Scan;

impl Lookup for Scan {
    const EMPTY: Self = Scan;

    type Gap = ();

    fn find(&self, records: &[Record; PLACES], endpoint: u32) -> Option<usize> {
        records
            .iter()
            .position(|r| r.is_live() && r.endpoint == endpoint)
    }

    fn gap(&self, records: &[Record; PLACES], endpoint: u32) -> Option<()> {
        self.find(records, endpoint).is_none().then_some(())
    }

    fn insert(&mut self, _: (), _: u32, _: usize) {}

    fn remove(&mut self, _: u32) {}

    fn count(&self, records: &[Record; PLACES]) -> usize {
        records.iter().filter(|r| r.is_live()).count()
    }
}
