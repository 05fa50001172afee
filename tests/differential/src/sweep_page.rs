//! Status pages without chance: every count with every length, every bit of three pages, every entry number.

use crate::case::Case;
use crate::compare::Bench;
use crate::make_page::lay_out;
use crate::page::{length, Entry, PLACES};
use crate::sweep::{run, Swept};

/// Places that rise as long as there are any, and endpoints that differ in their first octet or in their last.
fn entries(count: usize) -> Vec<Entry> {
    let endpoint = |i: u32| if i % 2 == 0 { i << 24 | 1 } else { 1 << 24 | i };
    (0..count as u32).map(|i| Entry { place: i, keyed: i % 3 != 1, endpoint: endpoint(i) }).collect()
}

/// Every count that six bits can say, with every length: zeros behind the count, and entries laid out, cut or with
/// zeros behind them.
pub fn lengths(bench: &mut Bench) -> Swept {
    for count in 0..64 {
        let laid_out = lay_out(&entries(count));
        for n in 0..=length(64) {
            let mut zeros = vec![0; n];
            let mut page = laid_out.clone();
            page.resize(n, 0);
            if n > 0 {
                zeros[0] = (count << 2) as u8;
            }
            run(bench, Case::Page { page: zeros, ask: count })?;
            run(bench, Case::Page { page, ask: 63 })?;
        }
    }
    Ok(())
}

/// Each bit of a page of 1, 16 and 32 entries.
pub fn bits(bench: &mut Bench) -> Swept {
    for page in [1, 16, PLACES].map(|count| lay_out(&entries(count))) {
        for bit in 0..8 * page.len() {
            let mut page = page.clone();
            page[bit / 8] ^= 0x80 >> (bit % 8);
            run(bench, Case::Page { page, ask: PLACES })?;
        }
    }
    Ok(())
}

/// Every number to behind an octet, and around every power of two, of a full page.
pub fn numbers(bench: &mut Bench) -> Swept {
    let page = lay_out(&entries(PLACES));
    let powers = (8..64).flat_map(|power| [(1usize << power) - 1, 1 << power, (1 << power) + 31]);
    for ask in (0..=300).chain(powers) {
        run(bench, Case::Page { page: page.clone(), ask })?;
    }
    Ok(())
}
