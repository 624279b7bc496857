//! The classes of jobs, each aimed at some part of document 01.

use crate::generate::rules::{any_rule, cell_is, reference, rule, KINDS};
use crate::generate::sheets::{self, sheet, Field, Flavour, NAMES};
use crate::generate::{limits, numbers};
use crate::job::{CellAt, Job, Kind, Operand, Value, MAX_COL, MAX_ROW};
use crate::rng::Rng;

/// Puts numbers of cells in the place of half of the literals, so that comparisons meet their ends.
fn echo(rng: &mut Rng, job: &mut Job) {
    let finite = |cell: &CellAt| match cell.value {
        Value::Number(bits) | Value::Date(bits) if f64::from_bits(bits).is_finite() => Some(bits),
        _ => None,
    };
    let numbers: Vec<u64> = job.cells.iter().filter_map(finite).collect();
    if numbers.is_empty() {
        return;
    }
    for rule in &mut job.rules {
        let operands = match &mut rule.kind {
            Kind::CellIs { first, second, .. } => [Some(first), second.as_mut()],
            Kind::Expr { left, right, .. } => [Some(left), Some(right)],
            _ => [None, None],
        };
        for operand in operands.into_iter().flatten() {
            if matches!(operand, Operand::Literal(_)) && rng.one_in(2) {
                *operand = Operand::Literal(*rng.pick(&numbers));
            }
        }
    }
}

pub fn plain(rng: &mut Rng) -> Job {
    let field = Field::small(rng);
    let flavour = *rng.pick(&[Flavour::Plain, Flavour::Mixed, Flavour::Keys, Flavour::Ties]);
    let mut job = sheet(rng, field, flavour);
    job.rules = (0..rng.below(6)).map(|_| any_rule(rng, field)).collect();
    echo(rng, &mut job);
    job
}

/// Rules of one kind alone.
pub fn of_kind(rng: &mut Rng, which: usize) -> Job {
    let field = Field::small(rng);
    let flavour = match which {
        6 => Flavour::Keys,
        _ => *rng.pick(&[Flavour::Plain, Flavour::Plain, Flavour::Special, Flavour::Ties, Flavour::Mixed]),
    };
    let mut job = sheet(rng, field, flavour);
    if which == 6 && !rng.one_in(3) {
        job.cells = sheets::cells(rng, field, 8, Flavour::Keys);
        job.cells.iter_mut().for_each(|cell| cell.wraps = cell.wraps.min(64));
    }
    job.rules = (0..rng.between(1, 3)).map(|_| rule(rng, field, which)).collect();
    echo(rng, &mut job);
    job
}

/// Many rules over few cells: equal priorities, overlaps, stops, a second bar.
pub fn overlap(rng: &mut Rng) -> Job {
    let field = Field::new(rng.between(1, 4) as u32, rng.between(1, 3) as u16);
    let mut job = sheet(rng, field, Flavour::Ties);
    job.rules = (0..rng.between(2, 14)).map(|_| any_rule(rng, field)).collect();
    for rule in &mut job.rules {
        rule.stop = rng.one_in(3);
        rule.priority = (!rng.one_in(3)).then(|| rng.below(4) as u32);
    }
    echo(rng, &mut job);
    job
}

pub fn specials(rng: &mut Rng) -> Job {
    let field = Field::new(rng.between(1, 6) as u32, 1);
    let flavour = *rng.pick(&[Flavour::Special, Flavour::Extremes, Flavour::Wide]);
    let mut job = sheet(rng, field, flavour);
    for _ in 0..rng.between(1, 3) {
        let which = *rng.pick(&[1, 2, 2, 3, 4, 5, 5, 0, 7]);
        job.rules.push(rule(rng, field, which));
    }
    echo(rng, &mut job);
    job
}

pub fn wraps(rng: &mut Rng) -> Job {
    let mut job = plain(rng);
    for cell in &mut job.cells {
        cell.wraps = *rng.pick(&[0, 1, 62, 63, 64, 64, 65, 65, 66, 128, 254, 255]);
    }
    job
}

/// References that are relative or absolute, and that leave the grid at both ends.
pub fn references(rng: &mut Rng) -> Job {
    let mut field = Field::small(rng);
    field.row = *rng.pick(&[0, 0, 1, MAX_ROW + 1 - field.rows]);
    field.col = *rng.pick(&[0, 0, 1, MAX_COL + 1 - field.cols]);
    let mut job = sheet(rng, field, Flavour::Plain);
    for _ in 0..rng.between(1, 3) {
        let mut new = rule(rng, field, 7);
        let op = rng.below(6) as u8;
        let other = if rng.one_in(2) { reference(rng, field) } else { Operand::Literal(numbers::small(rng)) };
        new.kind = match rng.below(2) {
            0 => cell_is(rng, field),
            _ => Kind::Expr { op, left: edge_reference(rng, field), right: other, fill: [1, 2, 3] },
        };
        job.rules.push(new);
    }
    job
}

/// A reference near an end of the grid.
fn edge_reference(rng: &mut Rng, field: Field) -> Operand {
    let mut operand = reference(rng, field);
    if let Operand::Reference(to) = &mut operand {
        to.row = *rng.pick(&[to.row, 0, MAX_ROW - 1, MAX_ROW, MAX_ROW + 1, u32::MAX]);
        to.col = *rng.pick(&[to.col, to.col, 0, MAX_COL - 1, MAX_COL, MAX_COL + 1, u16::MAX]);
        to.name = None;
    }
    operand
}

fn bytes(rng: &mut Rng) -> Vec<u8> {
    (0..rng.below(4)).map(|_| *rng.pick(&[0, 0x41, 0x61, 0x5b, 0x7b, 0x80, 0xc3, 0xe9, 0xff])).collect()
}

/// Names in both cases, empty ones, ones outside ASCII. `wild`: bytes that are no UTF-8 too.
pub fn names(rng: &mut Rng, wild: bool) -> Job {
    let field = Field::new(2, 1);
    let mut job = sheet(rng, field, if wild { Flavour::Keys } else { Flavour::Plain });
    job.name = if wild { bytes(rng) } else { rng.pick(&NAMES).to_vec() };
    for _ in 0..rng.between(1, 4) {
        let mut new = rule(rng, field, 7);
        let mut left = reference(rng, field);
        if let Operand::Reference(to) = &mut left {
            let same = rng.one_in(3).then(|| job.name.clone());
            let other = if wild { bytes(rng) } else { rng.pick(&NAMES).to_vec() };
            to.name = (!rng.one_in(6)).then_some(same.unwrap_or(other));
            (to.row, to.col) = (0, 0);
        }
        new.kind = Kind::Expr { op: 5, left, right: Operand::Literal(0xc024_0000_0000_0000), fill: [9, 8, 7] };
        job.rules.push(new);
    }
    if wild {
        wild_texts(rng, &mut job, field);
    }
    job
}

fn wild_texts(rng: &mut Rng, job: &mut Job, field: Field) {
    for cell in &mut job.cells {
        if rng.one_in(2) {
            cell.value = Value::Text(bytes(rng));
        }
    }
    job.rules.push(rule(rng, field, 6));
}

/// A plain job with its limit around what it charges.
pub fn around_limit(rng: &mut Rng) -> Job {
    let mut job = if rng.one_in(3) { of_kind(rng, 6) } else { plain(rng) };
    limits::around(rng, &mut job);
    job
}

/// A plain job with a counter near 2^64.
pub fn near_overflow(rng: &mut Rng) -> Job {
    let mut job = if rng.one_in(3) { of_kind(rng, 6) } else { plain(rng) };
    limits::overflow(rng, &mut job);
    job
}

/// Cells or regions off the grid (3), sometimes out of order as well.
pub fn off_grid(rng: &mut Rng) -> Job {
    let mut job = plain(rng);
    for _ in 0..rng.between(1, 2) {
        let (row, col) = *rng.pick(&[(MAX_ROW + 1, 0), (0, MAX_COL + 1), (u32::MAX, u16::MAX), (MAX_ROW, MAX_COL)]);
        if rng.one_in(2) {
            let at = rng.below(job.cells.len() as u64 + 1) as usize;
            job.cells.insert(at, CellAt { row, col, wraps: 0, value: Value::Error });
        } else {
            let at = rng.below(job.regions.len() as u64 + 1) as usize;
            job.regions.insert(at, (row, col));
        }
    }
    job
}

/// Cells or regions that do not rise (4).
pub fn out_of_order(rng: &mut Rng) -> Job {
    let mut job = plain(rng);
    for _ in 0..rng.between(1, 2) {
        if rng.one_in(2) && job.cells.len() > 1 {
            let (a, b) = (rng.below(job.cells.len() as u64) as usize, rng.below(job.cells.len() as u64) as usize);
            let copied = job.cells[a].clone();
            job.cells[b] = copied;
        } else if job.regions.len() > 1 {
            let (a, b) = (rng.below(job.regions.len() as u64) as usize, rng.below(job.regions.len() as u64) as usize);
            job.regions.swap(a, b);
        }
    }
    job
}

pub fn kinds() -> std::ops::Range<usize> {
    0..KINDS
}
