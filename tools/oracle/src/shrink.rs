//! Makes a job text smaller while it still shows a mismatch.

use crate::job::{Job, Kind, Operand, Range, Reference, Rule, Value};
use crate::read::read;
use crate::write::job_text;

/// The test that a smaller text has to pass, with a bound on how often it is asked.
struct Test<'a> {
    shows: &'a mut dyn FnMut(&[u8]) -> bool,
    left: u32,
}

impl Test<'_> {
    fn passes(&mut self, text: &[u8]) -> bool {
        if self.left == 0 {
            return false;
        }
        self.left -= 1;
        (self.shows)(text)
    }

    fn passes_job(&mut self, job: &Job) -> bool {
        self.passes(&job_text(job))
    }
}

/// The smallest text found by at most `tries` tries. `shows` holds of the text given.
pub fn shrink(text: &[u8], tries: u32, shows: &mut dyn FnMut(&[u8]) -> bool) -> Vec<u8> {
    let mut test = Test { shows, left: tries };
    match read(text) {
        Ok(job) => job_text(&shrink_job(job, &mut test)),
        Err(_) => shrink_bytes(text, &mut test),
    }
}

/// Leaves out parts of a list, halves first, then ever smaller ones.
fn fewer<T: Clone>(items: Vec<T>, passes: &mut dyn FnMut(&[T]) -> bool) -> Vec<T> {
    let mut items = items;
    let mut part = items.len();
    while part > 0 {
        let mut at = 0;
        while at < items.len() {
            let end = (at + part).min(items.len());
            let smaller = [&items[..at], &items[end..]].concat();
            if passes(&smaller) {
                items = smaller;
            } else {
                at = end;
            }
        }
        part /= 2;
    }
    items
}

fn shrink_bytes(text: &[u8], test: &mut Test) -> Vec<u8> {
    let lines: Vec<Vec<u8>> = text.split_inclusive(|&byte| byte == b'\n').map(<[u8]>::to_vec).collect();
    let lines = fewer(lines, &mut |lines| test.passes(&lines.concat()));
    fewer(lines.concat(), &mut |bytes| test.passes(bytes))
}

fn shrink_job(mut job: Job, test: &mut Test) -> Job {
    loop {
        let before = job.clone();
        let base = job.clone();
        job.rules = fewer(job.rules, &mut |rules| test.passes_job(&Job { rules: rules.to_vec(), ..base.clone() }));
        let base = job.clone();
        job.regions = fewer(job.regions, &mut |regions| test.passes_job(&Job { regions: regions.to_vec(), ..base.clone() }));
        let base = job.clone();
        job.cells = fewer(job.cells, &mut |cells| test.passes_job(&Job { cells: cells.to_vec(), ..base.clone() }));
        job = plainer(job, test);
        if job == before || test.left == 0 {
            return job;
        }
    }
}

/// Tries each plainer form of each part.
fn plainer(mut job: Job, test: &mut Test) -> Job {
    for change in whole_changes() {
        job = tried(job, test, change);
    }
    for index in 0..job.cells.len() {
        job = tried(job, test, &|job| job.cells[index].wraps = 0);
        for value in [Value::Number(0), Value::Number(0x3ff0_0000_0000_0000), Value::Error] {
            job = tried(job, test, &|job| job.cells[index].value = value.clone());
        }
    }
    for index in 0..job.rules.len() {
        for rule in plainer_rules(&job.rules[index]) {
            job = tried(job, test, &|job| job.rules[index] = rule.clone());
        }
    }
    job
}

/// The job with the change, if that is another job that passes; a step back is not taken, since values have an order of plainness.
fn tried(job: Job, test: &mut Test, change: &dyn Fn(&mut Job)) -> Job {
    let mut changed = job.clone();
    change(&mut changed);
    if plainness(&changed) < plainness(&job) && test.passes_job(&changed) {
        changed
    } else {
        job
    }
}

/// Less is plainer: a shorter text, and of two equally long ones the lesser.
fn plainness(job: &Job) -> (usize, Vec<u8>) {
    let text = job_text(job);
    (text.len(), text)
}

fn whole_changes() -> [&'static dyn Fn(&mut Job); 7] {
    [
        &|job| job.start = 0,
        &|job| job.limit = 0,
        &|job| job.limit = 99,
        &|job| job.limit = 100_000,
        &|job| job.name.clear(),
        &|job| shift_rows(job),
        &|job| shift_cols(job),
    ]
}

/// Moves the sheet to row 0.
fn shift_rows(job: &mut Job) {
    let least = job.cells.iter().map(|cell| cell.row).chain(job.regions.iter().map(|region| region.0)).min().unwrap_or(0);
    job.cells.iter_mut().for_each(|cell| cell.row -= least);
    job.regions.iter_mut().for_each(|region| region.0 -= least);
    for rule in &mut job.rules {
        rule.range.top = rule.range.top.saturating_sub(least);
        rule.range.bottom = rule.range.bottom.saturating_sub(least);
    }
}

/// Moves the sheet to column 0.
fn shift_cols(job: &mut Job) {
    let least = job.cells.iter().map(|cell| cell.col).chain(job.regions.iter().map(|region| region.1)).min().unwrap_or(0);
    job.cells.iter_mut().for_each(|cell| cell.col -= least);
    job.regions.iter_mut().for_each(|region| region.1 -= least);
    for rule in &mut job.rules {
        rule.range.left = rule.range.left.saturating_sub(least);
        rule.range.right = rule.range.right.saturating_sub(least);
    }
}

fn plainer_rules(rule: &Rule) -> Vec<Rule> {
    let mut list = vec![
        Rule { priority: None, ..rule.clone() },
        Rule { stop: false, ..rule.clone() },
        Rule { imported: false, ..rule.clone() },
        Rule { range: Range { top: 0, left: 0, bottom: 0, right: 0 }, ..rule.clone() },
        Rule { range: Range { top: 0, left: 0, ..rule.range }, ..rule.clone() },
        Rule { range: Range { bottom: 9, right: 9, ..rule.range }, ..rule.clone() },
    ];
    list.extend(plainer_kinds(&rule.kind).into_iter().map(|kind| Rule { kind, ..rule.clone() }));
    list
}

fn plainer_operands(operand: &Operand) -> Vec<Operand> {
    let mut list = vec![Operand::Unread, Operand::Literal(0), Operand::Literal(0x3ff0_0000_0000_0000)];
    if let Operand::Reference(reference) = operand {
        list.push(Operand::Reference(Reference { name: None, ..reference.clone() }));
        list.push(Operand::Reference(Reference { absolute: 0, ..reference.clone() }));
        list.push(Operand::Reference(Reference { row: 0, ..reference.clone() }));
        list.push(Operand::Reference(Reference { col: 0, ..reference.clone() }));
    }
    list
}

fn plainer_kinds(kind: &Kind) -> Vec<Kind> {
    let black = [0; 3];
    match kind.clone() {
        Kind::CellIs { op, first, second, fill } => {
            let with_first = |first| Kind::CellIs { op, first, second: second.clone(), fill };
            let mut list: Vec<Kind> = plainer_operands(&first).into_iter().map(with_first).collect();
            list.push(Kind::CellIs { op: 2, first: first.clone(), second: None, fill });
            list.push(Kind::CellIs { op, first, second, fill: black });
            list
        }
        Kind::Expr { op, left, right, fill } => {
            let with_left = |left| Kind::Expr { op, left, right: right.clone(), fill };
            let mut list: Vec<Kind> = plainer_operands(&left).into_iter().map(with_left).collect();
            list.extend(plainer_operands(&right).into_iter().map(|right| Kind::Expr { op, left: left.clone(), right, fill }));
            list.push(Kind::Expr { op: 0, left: left.clone(), right: right.clone(), fill });
            list.push(Kind::Expr { op, left, right, fill: black });
            list
        }
        Kind::Rank { number, bottom, percent, .. } => {
            let small = Kind::Rank { number: 1, bottom, percent, fill: black };
            vec![small, Kind::Rank { number, bottom, percent, fill: black }, Kind::Rank { number, bottom, percent: false, fill: black }]
        }
        Kind::Scale2 { .. } => vec![Kind::Scale2 { min: black, max: [0, 0, 255] }],
        Kind::Scale3 { .. } => vec![Kind::Scale3 { min: black, mid: [0, 0, 255], max: [0, 255, 0] }],
        Kind::Bar { .. } => vec![Kind::Bar { colour: black }],
        Kind::Mean { below, .. } => vec![Kind::Mean { below, fill: black }],
        Kind::Same { unique, .. } => vec![Kind::Same { unique, fill: black }],
    }
}

#[cfg(test)]
mod tests {
    use super::shrink;
    use crate::answer::Outcome;
    use crate::generate::{class_named, make_in};
    use crate::layout::ORIGINAL;
    use crate::report::outcome_by;

    fn second_bar(outcome: &Outcome) -> bool {
        outcome.as_ref().is_ok_and(|answer| answer.marks.iter().filter(|mark| mark.kind == 3).count() > answer.bars.len())
    }

    #[test]
    fn a_second_bar_needs_one_cell_and_two_rules() {
        let class = class_named("overlap").unwrap();
        let found = (0..).map(|number| make_in(5, number, class).text).find(|text| second_bar(&outcome_by(text, ORIGINAL))).unwrap();
        let small = shrink(&found, 5_000, &mut |text| second_bar(&outcome_by(text, ORIGINAL)));
        let head = small.split(|&byte| byte == b'\n').nth(1).unwrap();
        assert_eq!(String::from_utf8_lossy(head), "99 0 1 1 2 t");
    }

    #[test]
    fn an_unreadable_text_loses_its_needless_bytes() {
        let small = shrink(b"one\ntwo\nx three\nfour\n", 1_000, &mut |text| text.contains(&b'x'));
        assert_eq!(small, b"x");
    }
}
