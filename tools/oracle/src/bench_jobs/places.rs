//! Jobs by which two archives are compared: one rule over the whole sheet at rising sizes, and 64 rules at the greatest.

use super::{divided, over_sheet, KINDS, REFERRING_KINDS, SPARING_KINDS};
use crate::job::Job;

const SIZES: [usize; 4] = [16, 64, 256, 1024];

/// A job, what its rules are, and where they lie.
pub struct Placed {
    pub kind: &'static str,
    pub ranges: &'static str,
    pub job: Job,
}

/// A gradebook's rules lie over columns or parts of them.
fn one_rule_ranges(kind: &str) -> &'static str {
    match kind {
        "gradebook" | "stops" => "one column",
        _ => "the whole sheet",
    }
}

fn one_rule() -> impl Iterator<Item = Placed> {
    let kinds = KINDS.into_iter().chain(REFERRING_KINDS);
    kinds.flat_map(|kind| SIZES.map(|size| Placed { kind, ranges: one_rule_ranges(kind), job: divided(kind, size, 1) }))
}

fn many_rules() -> impl Iterator<Item = Placed> {
    let sparing = SPARING_KINDS.into_iter().chain(REFERRING_KINDS);
    let over = sparing.map(|kind| Placed { kind, ranges: "the whole sheet each", job: over_sheet(kind, 1024, 64) });
    over.chain(["gradebook", "stops"].map(|kind| Placed { kind, ranges: "divide the sheet", job: divided(kind, 1024, 64) }))
}

/// Those of one rule stand together by their kind, the sizes rising.
pub fn all() -> Vec<Placed> {
    one_rule().chain(many_rules()).collect()
}
