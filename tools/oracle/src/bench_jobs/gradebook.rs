//! A gradebook: columns of points, dates, names and classes, each with rules of one kind. Ranges overlap, some rules have an imported
//! style, half have a written priority, and some results are missing. If `stops`, every third rule has stop-if-true.

use super::{kind, literal, number, part_of_rows, rows_range, sheet, to_the_left, COLUMNS, RED};
use crate::job::{Job, Kind, Operand, Range, Reference, Rule, Value};
use crate::rng::Rng;

/// The kind of a column's rules, in columns 0 to 7 and again in 8 to 15.
const COLUMN_KINDS: [&str; 8] = ["cellis", "scale2", "scale3", "bar", "rank", "mean", "same", "expr"];

fn text(word: &str) -> Value {
    Value::Text(word.as_bytes().to_vec())
}

/// Column 6 has names, 14 classes, 4 and 12 dates, the others points. Of columns 1 to 5 and 9 to 13 one result in ten is missing. The
/// first cell is a bound that rules refer to.
fn value(rng: &mut Rng, index: usize) -> Value {
    let (row, column) = (index / COLUMNS, index % COLUMNS);
    let points = rng.below(1001) as f64 / 10.0;
    match column {
        0 if row == 0 => number(60.0),
        6 => text(&format!("Pupil {:03}", row * 7 % 60)),
        14 => text(["5a", "5b", "5c", "5d"][row % 4]),
        1..=5 | 9..=13 if rng.one_in(10) => text("ill"),
        4 | 12 => Value::Date((46_000.0 + points).to_bits()),
        _ => number(points),
    }
}

/// Kinds that mark every number have a part of their column, the others the whole of it.
fn range(name: &str, index: usize, rules: usize, rows: usize) -> Range {
    let column = (index % COLUMNS) as u16;
    let (part, parts) = match name {
        "cellis" | "rank" | "mean" => (0, 1),
        _ => (index / COLUMNS, rules.div_ceil(COLUMNS)),
    };
    let (top, bottom) = part_of_rows(part, parts, rows);
    Range { top, left: column, bottom, right: column }
}

/// Operands are references here: a bound in the sheet's first cell, its name in the other case, and the column of points to the left.
fn column_kind(name: &str, range: Range) -> Kind {
    match name {
        "cellis" => {
            let bound = Reference { row: 0, col: 0, absolute: 3, name: Some(b"GRADES".to_vec()) };
            Kind::CellIs { op: 0, first: literal(40.0), second: Some(Operand::Reference(bound)), fill: RED }
        }
        "expr" => Kind::Expr { op: 4, left: to_the_left(range, 0), right: to_the_left(range, 7), fill: RED },
        _ => kind(name, range),
    }
}

fn rule(index: usize, rules: usize, rows: usize, stops: bool) -> Rule {
    let name = COLUMN_KINDS[index % COLUMN_KINDS.len()];
    let range = range(name, index, rules, rows);
    let priority = (index % 2 == 0).then_some((rules - index) as u32);
    Rule { range, priority, stop: stops && index % 3 == 0, imported: index % 5 == 4, kind: column_kind(name, range) }
}

pub fn job(size: usize, rules: usize, stops: bool) -> Job {
    let mut rng = Rng::new(2026, size as u64);
    let rows = size / COLUMNS;
    let rules = (0..rules).map(|index| rule(index, rules, rows, stops)).collect();
    sheet(size, |index| value(&mut rng, index), rules)
}

/// From each region the cell of a column in its row.
fn in_its_row(column: u16) -> Operand {
    Operand::Reference(Reference { row: 0, col: column, absolute: 2, name: None })
}

/// Without stops and with every range the whole sheet. An expression compares two columns that have points alone: at a text it would defer.
pub fn over_sheet(size: usize, rules: usize) -> Job {
    let mut job = job(size, rules, false);
    for rule in &mut job.rules {
        rule.range = rows_range(0, 1, size / COLUMNS);
        if let Kind::Expr { left, right, .. } = &mut rule.kind {
            (*left, *right) = (in_its_row(0), in_its_row(7));
        }
    }
    job
}
