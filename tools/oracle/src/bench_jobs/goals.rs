//! Jobs with a goal: how many times as long as the library the original has to take for deciding. Those without one show how both grow.

use super::{divided, gradebook, hostile, in_columns, whole};
use crate::job::Job;

/// A job, the set that it belongs to, what its rules are, and its goal.
pub struct Goal {
    pub set: &'static str,
    pub kind: String,
    pub goal: Option<u32>,
    pub job: Job,
}

/// 64 rules, or one for growth.
fn over(rules: usize, kind: &str, job: Job) -> Goal {
    Goal { set: "whole sheet", kind: kind.to_string(), goal: (rules == 64).then_some(10), job }
}

/// A gradebook grows from 8 rules, one of each kind. Behind a rule that stops all there is no job of one rule.
fn whole_sheet() -> impl Iterator<Item = Goal> {
    let plain = whole::KINDS.into_iter().flat_map(|kind| [1, 64].map(|rules| over(rules, kind, whole::job(kind, 1024, rules))));
    let mixed = [8, 64].map(|rules| over(rules, "gradebook", gradebook::over_sheet(1024, rules)));
    let stopped = ["scale2", "scale3", "bar"].map(|kind| over(64, &format!("stops, {kind}"), whole::stopped(kind, 1024, 64)));
    plain.chain(mixed).chain(stopped)
}

const DIVIDING_KINDS: [&str; 10] = ["cellis", "cellis, relative", "expr", "scale2", "scale3", "bar", "rank", "mean", "same", "words"];

/// Rules of one row each, then of one column each.
fn dividing() -> impl Iterator<Item = Goal> {
    let goal = |set, kind: &str, job| Goal { set, kind: kind.to_string(), goal: Some(5), job };
    let rows = DIVIDING_KINDS.into_iter().map(move |kind| goal("rows", kind, divided(kind, 1024, 64)));
    rows.chain(DIVIDING_KINDS.into_iter().map(move |kind| goal("columns", kind, in_columns(kind, 1024, 64))))
}

fn small() -> impl Iterator<Item = Goal> {
    let goal = |kind: &str, size| Goal { set: "small", kind: kind.to_string(), goal: Some(1), job: whole::job(kind, size, 1) };
    whole::KINDS.into_iter().flat_map(move |kind| [16, 64].map(|size| goal(kind, size)))
}

/// Those of one kind stand together.
fn slow() -> impl Iterator<Item = Goal> {
    let mut jobs = [(256, 1), (256, 64), (1024, 1), (1024, 64)].map(|(size, rules)| hostile::all(size, rules)).concat();
    let kinds: Vec<&str> = hostile::all(256, 1).iter().map(|(kind, _)| *kind).collect();
    jobs.sort_by_key(|(kind, _)| kinds.iter().position(|listed| listed == kind));
    jobs.into_iter().map(|(kind, job)| Goal { set: "hostile", kind: kind.to_string(), goal: None, job })
}

pub fn all() -> Vec<Goal> {
    whole_sheet().chain(dividing()).chain(small()).chain(slow()).collect()
}

#[cfg(test)]
mod tests {
    use super::*;
    use crate::decide::decide;
    use crate::job::{Rule, MAX_TEXT};
    use crate::layout::ORIGINAL;
    use crate::read::read;
    use crate::write::job_text;

    /// Each rule by itself has space for its marks, so that it shows whether it defers.
    fn assert_none_defers(what: &str, job: &Job) {
        let mut seen: Vec<&Rule> = Vec::new();
        for rule in &job.rules {
            if !seen.contains(&rule) {
                seen.push(rule);
                let answer = decide(&Job { rules: vec![rule.clone()], ..job.clone() }, ORIGINAL);
                assert!(answer.is_ok_and(|answer| answer.deferred == 0), "{what}");
            }
        }
    }

    #[test]
    fn every_job_is_decided_in_full() {
        for Goal { set, kind, job, .. } in all() {
            let what = format!("{set}, {kind}, {} cells, {} rules", job.cells.len(), job.rules.len());
            let text = job_text(&job);
            assert!(text.len() <= MAX_TEXT && read(&text).as_ref() == Ok(&job), "{what}");
            assert_none_defers(&what, &job);
            assert!(decide(&job, ORIGINAL).map_or_else(|refusal| refusal.number == 9, |answer| answer.count > 0), "{what}");
        }
    }

    #[test]
    fn there_are_as_many_of_each_set() {
        let count = |set: &str, goal: Option<u32>| all().iter().filter(|job| job.set == set && job.goal == goal).count();
        assert_eq!([count("whole sheet", Some(10)), count("whole sheet", None)], [21, 18]);
        assert_eq!([count("rows", Some(5)), count("columns", Some(5)), count("small", Some(1))], [10, 10, 34]);
        assert_eq!(count("hostile", None), 4 * 17);
    }
}
