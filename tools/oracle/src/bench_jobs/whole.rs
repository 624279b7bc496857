//! Rules that all lie over the whole sheet, of kinds that mark half of the cells and of kinds that mark few or all.

use super::{at, between, kind, literal, number, own_less, plain_rule, rows_range, sheet, to_the_left, up_to_own, COLUMNS, RED};
use crate::job::{Job, Kind, Operand, Range, Reference, Rule, Value};

/// `many` is half of the cells, which those without a word for it mark too; `few` is 8 of 1,024. Scales and bars mark all.
pub const KINDS: [&str; 17] = [
    "cellis, many",
    "cellis, few",
    "cellis, relative",
    "cellis, absolute",
    "expr, one reference",
    "expr, two references",
    "scale2",
    "scale3",
    "bar",
    "rank by count, many",
    "rank by count, few",
    "rank by percent, many",
    "rank by percent, few",
    "mean, many",
    "mean, few",
    "same",
    "words",
];

fn few(size: usize) -> usize {
    (size / 128).max(1)
}

fn points(place: usize) -> f64 {
    place as f64 / 10.0
}

/// The places of a shuffled sheet; `size` is a power of 2. That of the middle cell is the middle one.
fn place(index: usize, size: usize) -> usize {
    index * 397 % size
}

/// Distinct points. For `same` and `words` half of the cells have a double; for `mean, few` the greatest are far above all others.
fn value(name: &str, index: usize, size: usize) -> Value {
    let place = place(index, size);
    let doubled = place % (size / 4 * 3);
    match name {
        "same" => number(points(doubled)),
        "words" => Value::Text(format!("Pupil {doubled:04}").into_bytes()),
        "mean, few" if place >= size - few(size) => number(points(1000 * size)),
        _ => number(points(place)),
    }
}

/// The middle cell, by an absolute reference: half of the points are less.
fn middle(size: usize) -> Operand {
    let (row, col) = at(size / 2);
    Operand::Reference(Reference { row, col, absolute: 3, name: None })
}

fn rank(number: usize, percent: bool) -> Kind {
    Kind::Rank { number: number as u32, bottom: false, percent, fill: RED }
}

fn whole_kind(name: &str, size: usize, range: Range) -> Kind {
    match name {
        "cellis, many" => between(points(size / 2), points(size)),
        "cellis, few" => between(points(size - few(size)), points(size)),
        "cellis, relative" => up_to_own(range, points(size / 2)),
        "cellis, absolute" => Kind::CellIs { op: 5, first: middle(size), second: None, fill: RED },
        "expr, one reference" => own_less(range, points(size / 2)),
        "expr, two references" => Kind::Expr { op: 2, left: to_the_left(range, 0), right: middle(size), fill: RED },
        "rank by count, many" => rank(size / 2, false),
        "rank by count, few" => rank(few(size), false),
        "rank by percent, many" => rank(50, true),
        "rank by percent, few" => rank(1, true),
        "mean, many" | "mean, few" => kind("mean", range),
        _ => kind(name, range),
    }
}

pub fn job(name: &str, size: usize, rules: usize) -> Job {
    let range = rows_range(0, 1, size / COLUMNS);
    let rule = plain_rule(range, whole_kind(name, size, range));
    sheet(size, |index| value(name, index, size), vec![rule; rules])
}

/// The first rule marks every region and stops it for all others.
pub fn stopped(name: &str, size: usize, rules: usize) -> Job {
    let mut job = job(name, size, rules);
    let all = Kind::CellIs { op: 6, first: literal(0.0), second: None, fill: RED };
    job.rules[0] = Rule { stop: true, ..plain_rule(job.rules[0].range, all) };
    job
}

#[cfg(test)]
mod tests {
    use super::*;
    use crate::decide::decide;
    use crate::layout::ORIGINAL;

    fn marks(job: &Job) -> usize {
        decide(job, ORIGINAL).map_or_else(|refusal| panic!("{refusal:?}"), |answer| answer.marks.len())
    }

    fn due(name: &str, size: usize) -> usize {
        match name {
            "scale2" | "scale3" | "bar" => size,
            "rank by percent, few" => size.div_ceil(100),
            _ if name.ends_with("few") => few(size),
            _ => size / 2,
        }
    }

    #[test]
    fn kinds_mark_as_many_as_they_say() {
        for size in [16, 64, 256, 1024] {
            for name in KINDS {
                assert_eq!(marks(&job(name, size, 1)), due(name, size), "{name} {size}");
            }
        }
        assert_eq!(few(1024), 8);
    }

    #[test]
    fn the_first_rule_stops_every_region() {
        let job = stopped("bar", 1024, 64);
        let answer = decide(&job, ORIGINAL).expect("all marks have space");
        assert!(answer.marks.len() == 1024 && answer.bars.is_empty() && answer.simplified == 63);
    }
}
