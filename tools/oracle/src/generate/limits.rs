//! Limits and starting counts around what a job charges.

use crate::decide::decide;
use crate::job::Job;
use crate::layout::ORIGINAL;
use crate::rng::Rng;

/// How much the job charges without a limit, as the original counts; none if it is refused ahead of that.
pub fn charges(job: &Job) -> Option<u64> {
    let free = Job { limit: u64::MAX, start: 0, ..job.clone() };
    match decide(&free, ORIGINAL) {
        Ok(answer) => Some(answer.count),
        Err(refusal) => (refusal.number == 9).then_some(refusal.count),
    }
}

/// The limit is at or next to the count reached, next to the start, or between.
pub fn around(rng: &mut Rng, job: &mut Job) {
    let charged = charges(job).unwrap_or(0);
    job.start = *rng.pick(&[0, 0, 1, 1000, 1 << 40]);
    let end = job.start + charged;
    job.limit = match rng.below(10) {
        0..=1 => end,
        2..=3 => end.saturating_sub(1),
        4 => end + 1,
        5 => job.start,
        6 => job.start.saturating_sub(1),
        7 => job.start + 1,
        8 => 0,
        _ => job.start + rng.below(charged + 1),
    };
}

/// The count reached is next to 2^64 - 1; the limit is free, or as far as the count, or short.
pub fn overflow(rng: &mut Rng, job: &mut Job) {
    let charged = charges(job).unwrap_or(0);
    let back = match rng.below(6) {
        0..=1 => charged,
        2 => charged.saturating_sub(1),
        3 => charged + 1,
        4 => rng.below(charged + 1),
        _ => 0,
    };
    job.start = u64::MAX - back;
    job.limit = match rng.below(6) {
        0 => u64::MAX - 1,
        1 => job.start,
        2 => 0,
        _ => u64::MAX,
    };
}
