//! Counts what the random cases reached, and asks for enough of each.

use crate::case::Case;
use crate::page::{self, PLACES};
use crate::paper::{self, Answer, Why};

pub struct Tally {
    whys: Vec<u64>,
    first_octets: [u64; 256],
    tag_types: [u64; 256],
    /// Pages, by the number of entries.
    pages: [u64; PLACES + 1],
}

impl Tally {
    pub fn new() -> Tally {
        Tally { whys: vec![0; Why::ALL.len()], first_octets: [0; 256], tag_types: [0; 256], pages: [0; PLACES + 1] }
    }

    pub fn note(&mut self, case: &Case, why: Why) {
        self.whys[why as usize] += 1;
        match case {
            Case::Sort { packet } if !packet.is_empty() => self.first_octets[packet[0] as usize] += 1,
            Case::Tag { packet, .. } if matches!(why, Why::TagShort | Why::TagFull | Why::TagExtension) => {
                self.tag_types[packet[packet.len() - 1] as usize] += 1
            }
            Case::Page { page, .. } => {
                if let Ok(entries) = page::read(page) {
                    self.pages[entries.len()] += 1
                }
            }
            _ => {}
        }
    }

    pub fn print(&self) {
        for (why, count) in Why::ALL.iter().zip(&self.whys) {
            println!("  {count:>10}  {why:?}");
        }
    }

    /// What occurred less often than one in 20,000 cases; of the first octets sorted, of the types of accepted tags and
    /// of the numbers of entries of pages, what occurred less often than one in a million.
    pub fn missing(&self, cases: u64) -> Vec<String> {
        let mut missing = Vec::new();
        let mut ask = |name: String, count: u64, least: u64| {
            if count < least.max(1) {
                missing.push(format!("{name}: {count} times, wanted {}", least.max(1)));
            }
        };
        for (why, &count) in Why::ALL.iter().zip(&self.whys) {
            ask(format!("{why:?}"), count, cases / 20_000);
        }
        for octet in 0..256 {
            ask(format!("packet with first octet {octet}"), self.first_octets[octet], cases / 1_000_000);
            // Type 1 is no tag.
            if paper::tag(&[0xBB, 0, 0, 0, 0, 0, 8, octet as u8]).answer != Answer::Refused(18) {
                ask(format!("tag of type {octet}"), self.tag_types[octet], cases / 1_000_000);
            }
        }
        for (count, &seen) in self.pages.iter().enumerate() {
            ask(format!("page of {count} entries"), seen, cases / 1_000_000);
        }
        missing
    }
}
