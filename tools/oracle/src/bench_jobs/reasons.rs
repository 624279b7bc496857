//! Jobs that show one reason each: two of them differ in what the reason names and in nothing else.

use super::{between, number, over_sheet, plain_rule, Range, RED};
use crate::job::{Job, Kind, Operand, Reference, Rule, Value};

/// What a job shows, and the job.
pub type Reason = (&'static str, Job);

/// Where the regions lie among 1,024 cells.
fn searches() -> Vec<Reason> {
    let places = [
        ("cellis, 64 regions on the first of 1,024 cells", 0),
        ("cellis, 64 regions in the middle", 480),
        ("cellis, 64 regions on the last", 960),
    ];
    let placed = |(what, from): (&'static str, usize)| {
        let mut job = over_sheet("cellis", 1024, 1);
        job.regions = job.regions[from..from + 64].to_vec();
        (what, job)
    };
    places.map(placed).to_vec()
}

/// Operands that search for the last cell, from regions whose cells are numbers, or texts, for which no operand is needed.
fn operands() -> Vec<Reason> {
    let last = || Operand::Reference(Reference { row: 63, col: 15, absolute: 3, name: None });
    let mut numbers = searches().swap_remove(0).1;
    numbers.rules[0].kind = Kind::CellIs { op: 0, first: last(), second: Some(last()), fill: RED };
    let mut texts = numbers.clone();
    texts.cells[..64].iter_mut().for_each(|cell| cell.value = Value::Text(b"ill".to_vec()));
    vec![("the first of these, by two references to the last cell", numbers), ("the same on cells with texts", texts)]
}

/// 64 rules that hold no region.
fn idle_rules() -> Vec<Rule> {
    vec![plain_rule(Range { top: 900, left: 0, bottom: 900, right: 0 }, between(0.0, 1.0)); 64]
}

/// What such rules cost by the number of regions.
fn rules() -> Vec<Reason> {
    let on_first = |regions: usize| {
        let mut job = Job { rules: idle_rules(), ..over_sheet("cellis", 1024, 1) };
        job.cells.truncate(regions);
        job.regions.truncate(regions);
        job
    };
    vec![
        ("64 rules that hold none of 2 regions", on_first(2)),
        ("64 rules that hold none of 64 regions", on_first(64)),
        ("64 rules that hold none of 1,024 regions", on_first(1024)),
    ]
}

/// What they cost behind a rule that marks half of the regions, and behind one that stops them too.
fn stops() -> Vec<Reason> {
    let half = Range { top: 0, left: 0, bottom: 31, right: 15 };
    let behind = |stop: bool| {
        let mut rules = idle_rules();
        rules[0] = Rule { stop, ..plain_rule(half, Kind::Scale2 { min: RED, max: RED }) };
        Job { rules, ..over_sheet("cellis", 1024, 1) }
    };
    vec![("the last of these, the first rule a scale over 512", behind(false)), ("the same, and it stops them", behind(true))]
}

/// In which order the values of a rank stand.
fn orders() -> Vec<Reason> {
    let ordered = |value: fn(usize) -> usize| {
        let mut job = over_sheet("rank", 1024, 1);
        job.cells.iter_mut().enumerate().for_each(|(index, cell)| cell.value = number(value(index) as f64));
        job
    };
    vec![("rank of 1,024 rising values", ordered(|index| index)), ("rank of 1,024 falling values", ordered(|index| 1023 - index))]
}

pub fn all() -> Vec<Reason> {
    [searches(), operands(), rules(), stops(), orders()].concat()
}
