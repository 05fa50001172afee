//! Indices worked by hand from RFC 3711, appendix A, and document 02, order 11, which give no numbers of their own but
//! the limits: they show that the rules in index.rs are right, and are held against the library too.

use crate::case::Case;
use crate::compare::Bench;
use crate::index::{appendix_a, nearest, Index};
use crate::paper::Answer::{Refused, Value};
use crate::sweep::{run, Swept};

const LAST: u32 = 4_294_967_295;

/// ROC, highest and sequence number; the index or the refusal; ROC and highest number afterwards.
type Worked = ((u32, u16, u16), Result<u64, u8>, (u32, u32));

const WORKED: [Worked; 20] = [
    ((0, 0, 0), Ok(0), (0, 0)),
    ((0, 0, 32_768), Ok(32_768), (0, 32_768)),
    ((0, 0, 32_769), Err(31), (0, 0)),
    ((0, 0, 65_535), Err(31), (0, 0)),
    ((0, 32_766, 65_535), Err(31), (0, 32_766)),
    ((0, 32_767, 65_535), Ok(65_535), (0, 65_535)),
    ((0, 65_535, 0), Ok(65_536), (1, 0)),
    ((1, 0, 65_535), Ok(65_535), (1, 0)),
    ((1, 10, 32_778), Ok(98_314), (1, 32_778)),
    ((1, 10, 32_779), Ok(32_779), (1, 10)),
    ((7, 1000, 1000), Ok(459_752), (7, 1000)),
    ((7, 1000, 999), Ok(459_751), (7, 1000)),
    ((7, 40_000, 7_232), Ok(465_984), (7, 40_000)),
    ((7, 40_000, 7_231), Ok(531_519), (8, 7_231)),
    ((65_535, 65_535, 0), Ok(4_294_967_296), (65_536, 0)),
    ((LAST - 1, 65_535, 0), Ok(281_474_976_645_120), (LAST, 0)),
    ((LAST, 0, 65_535), Ok(281_474_976_645_119), (LAST, 0)),
    ((LAST, 65_535, 65_535), Ok(281_474_976_710_655), (LAST, 65_535)),
    ((LAST, 65_535, 32_767), Ok(281_474_976_677_887), (LAST, 65_535)),
    ((LAST, 65_535, 32_766), Err(32), (LAST, 65_535)),
];

pub fn all(bench: &mut Bench) -> Swept {
    for ((roc, highest, sequence), index, kept) in WORKED {
        let estimate = index.map_or_else(Refused, |_| Value(0));
        let worked = Index { estimate, number: index.unwrap_or(0), roc: kept.0, highest: kept.1 };
        assert_eq!(nearest(roc, highest, sequence), worked, "{roc} {highest} {sequence}");
        assert_eq!(appendix_a(roc, highest, sequence), worked, "{roc} {highest} {sequence}");
        run(bench, Case::Index { roc, highest, sequence })?;
    }
    Ok(())
}
