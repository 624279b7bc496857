//! Jobs for the measurement: each rule kind alone and a gradebook with all of them, with rules that divide the sheet or that all lie over
//! the whole of it; jobs by which two archives are compared; jobs with a goal; jobs that show why a side is slow; and texts and reports of
//! rising length.

pub mod goals;
mod gradebook;
mod hostile;
pub mod long;
mod one_code;
pub mod places;
pub mod reasons;
mod whole;
pub mod wide;

use crate::job::{CellAt, Job, Kind, Operand, Range, Reference, Rgb24, Rule, Value};
use crate::rng::Rng;

/// `words` is `same` over texts, `stops` a gradebook in which every third rule has stop-if-true.
pub const KINDS: [&str; 11] = ["cellis", "scale2", "scale3", "bar", "rank", "mean", "same", "words", "expr", "gradebook", "stops"];
/// `cellis` with a reference among its operands: to the region's own cell, and to the last cell of the range.
const REFERRING_KINDS: [&str; 2] = ["cellis, relative", "cellis, absolute"];
/// Those that can lie 64 times over 1,024 cells and still have space for their marks.
pub const SPARING_KINDS: [&str; 5] = ["cellis", "rank", "same", "words", "expr"];
pub const SIZES: [usize; 3] = [64, 256, 1024];
pub const RULES: [usize; 3] = [1, 8, 64];

/// Columns of the sheet.
const COLUMNS: usize = 16;
const RED: Rgb24 = [255, 0, 0];
const GREEN: Rgb24 = [0, 255, 0];

fn at(index: usize) -> (u32, u16) {
    ((index / COLUMNS) as u32, (index % COLUMNS) as u16)
}

fn number(value: f64) -> Value {
    Value::Number(value.to_bits())
}

fn literal(value: f64) -> Operand {
    Operand::Literal(value.to_bits())
}

/// From each region the cell that lies so many columns to the left.
fn to_the_left(range: Range, columns: u16) -> Operand {
    Operand::Reference(Reference { row: range.top, col: range.left - columns, absolute: 0, name: None })
}

fn between(least: f64, greatest: f64) -> Kind {
    Kind::CellIs { op: 0, first: literal(least), second: Some(literal(greatest)), fill: RED }
}

/// From a number up to the region's own cell, by a relative reference.
fn up_to_own(range: Range, least: f64) -> Kind {
    Kind::CellIs { op: 0, first: literal(least), second: Some(to_the_left(range, 0)), fill: RED }
}

/// Equal to the range's last cell, by an absolute reference.
fn equal_to_last(range: Range) -> Kind {
    let last = Reference { row: range.bottom, col: range.right, absolute: 3, name: None };
    Kind::CellIs { op: 2, first: Operand::Reference(last), second: None, fill: RED }
}

/// The region's own cell, by a reference, is less than a number.
fn own_less(range: Range, than: f64) -> Kind {
    Kind::Expr { op: 2, left: to_the_left(range, 0), right: literal(than), fill: RED }
}

fn kind(name: &str, range: Range) -> Kind {
    match name {
        "cellis" => between(40.0, 60.0),
        "cellis, relative" => up_to_own(range, 40.0),
        "cellis, absolute" => equal_to_last(range),
        "scale2" => Kind::Scale2 { min: RED, max: GREEN },
        "scale3" => Kind::Scale3 { min: RED, mid: [255, 255, 0], max: GREEN },
        "bar" => Kind::Bar { colour: [0, 0, 255] },
        "rank" => Kind::Rank { number: 10, bottom: false, percent: true, fill: RED },
        "mean" => Kind::Mean { below: false, fill: RED },
        "same" | "words" => Kind::Same { unique: false, fill: RED },
        "expr" => own_less(range, 50.0),
        _ => unreachable!("{name} is no rule kind"),
    }
}

/// True of a few cells of a sheet of distinct values.
fn sparing_kind(name: &str, range: Range) -> Kind {
    match name {
        "cellis" => between(102.0, 110.0),
        "cellis, relative" => up_to_own(range, 102.0),
        "rank" => Kind::Rank { number: 1, bottom: false, percent: false, fill: RED },
        "expr" => own_less(range, 0.5),
        _ => kind(name, range),
    }
}

fn plain_rule(range: Range, kind: Kind) -> Rule {
    Rule { range, priority: None, stop: false, imported: false, kind }
}

/// A sheet with a region on each cell. One cell in five is a formula.
fn sheet_at(places: Vec<(u32, u16)>, mut value: impl FnMut(usize) -> Value, rules: Vec<Rule>) -> Job {
    let cell = |(index, &(row, col)): (usize, &(u32, u16))| CellAt { row, col, wraps: u8::from(index % 5 == 0), value: value(index) };
    let cells = places.iter().enumerate().map(cell).collect();
    Job { limit: u64::MAX, start: 0, name: b"Grades".to_vec(), cells, regions: places, rules }
}

/// The same of 16 columns.
fn sheet(size: usize, value: impl FnMut(usize) -> Value, rules: Vec<Rule>) -> Job {
    sheet_at((0..size).map(at).collect(), value, rules)
}

/// Rows of part `part` of `parts`, as many as there are, at least one.
fn part_of_rows(part: usize, parts: usize, rows: usize) -> (u32, u32) {
    let (top, end) = (part * rows / parts, (part + 1) * rows / parts);
    (top as u32, end.max(top + 1) as u32 - 1)
}

fn rows_range(part: usize, parts: usize, rows: usize) -> Range {
    let (top, bottom) = part_of_rows(part, parts, rows);
    Range { top, left: 0, bottom, right: COLUMNS as u16 - 1 }
}

/// Points from 0 to 100, or texts of them for `words`, with a rule of one kind on each range.
fn ruled(name: &str, size: usize, ranges: impl Iterator<Item = Range>) -> Job {
    let mut rng = Rng::new(2026, size as u64);
    let points = |_| {
        let points = rng.below(1001);
        if name == "words" {
            Value::Text(format!("Pupil {points:04}").into_bytes())
        } else {
            number(points as f64 / 10.0)
        }
    };
    sheet(size, points, ranges.map(|range| plain_rule(range, kind(name, range))).collect())
}

/// Rules that divide the rows among them, so that all marks have space. With more rules than rows, several share a row.
pub fn divided(name: &str, size: usize, rules: usize) -> Job {
    if name == "gradebook" || name == "stops" {
        return gradebook::job(size, rules, name == "stops");
    }
    ruled(name, size, (0..rules).map(|index| rows_range(index, rules, size / COLUMNS)))
}

/// Rules of one column each. With more rules than columns, several share one.
fn in_columns(name: &str, size: usize, rules: usize) -> Job {
    let column = |index: usize| {
        let column = (index % COLUMNS) as u16;
        Range { left: column, right: column, ..rows_range(0, 1, size / COLUMNS) }
    };
    ruled(name, size, (0..rules).map(column))
}

/// Rules that all lie over the whole sheet. Its values are distinct but for the first two.
pub fn over_sheet(name: &str, size: usize, rules: usize) -> Job {
    let distinct = |index: usize| {
        let shuffled = index.max(1) * 397 % 1024;
        if name == "words" {
            Value::Text(format!("Pupil {shuffled:04}").into_bytes())
        } else {
            number(shuffled as f64 / 10.0)
        }
    };
    let range = rows_range(0, 1, size / COLUMNS);
    sheet(size, distinct, (0..rules).map(|_| plain_rule(range, sparing_kind(name, range))).collect())
}

/// The same job with its last region where the one before it is: all of it is read and checked, then refused with 4 before any rule.
pub fn refused_by_check(job: &Job) -> Job {
    let mut refused = job.clone();
    let last = refused.regions.len() - 1;
    refused.regions[last] = refused.regions[last - 1];
    refused
}

#[cfg(test)]
mod tests {
    use super::*;
    use crate::decide::decide;
    use crate::job::MAX_TEXT;
    use crate::layout::ORIGINAL;
    use crate::write::job_text;

    /// Gives how many marks there are.
    fn assert_answered(what: &str, job: &Job) -> usize {
        assert!(job_text(job).len() <= MAX_TEXT, "{what} is too long");
        let answer = decide(job, ORIGINAL).unwrap_or_else(|refusal| panic!("{what}: {refusal:?}"));
        assert!(answer.deferred == 0, "{what}: {} deferred", answer.deferred);
        let refusal = decide(&refused_by_check(job), ORIGINAL).expect_err(what);
        assert_eq!((refusal.number, refusal.place), (4, job.regions.len() as u64 - 1));
        answer.marks.len()
    }

    #[test]
    fn every_job_is_answered() {
        for rules in RULES {
            for size in SIZES {
                for name in KINDS {
                    assert!(assert_answered(&format!("{name} {size} {rules}"), &divided(name, size, rules)) > 0);
                }
            }
            for name in SPARING_KINDS {
                assert!(assert_answered(&format!("{name} over the sheet {rules}"), &over_sheet(name, 1024, rules)) > 0);
            }
        }
        for (what, job) in reasons::all() {
            assert_answered(what, &job);
        }
        for places::Placed { kind, job, .. } in places::all() {
            assert_answered(&format!("{kind} {} {}", job.cells.len(), job.rules.len()), &job);
        }
    }
}
