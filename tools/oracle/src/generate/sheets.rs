//! Cells, regions and names.

use std::collections::{BTreeMap, BTreeSet};

use crate::generate::numbers;
use crate::job::{CellAt, Job, Value, MAX_COL, MAX_ROW};
use crate::rng::Rng;

/// A part of the grid in which cells, regions and ranges lie.
#[derive(Debug, Clone, Copy)]
pub struct Field {
    pub row: u32,
    pub col: u16,
    pub rows: u32,
    pub cols: u16,
}

impl Field {
    pub fn new(rows: u32, cols: u16) -> Self {
        Field { row: 0, col: 0, rows, cols }
    }

    /// At the grid's start, at one of its ends, or anywhere.
    pub fn small(rng: &mut Rng) -> Self {
        let (rows, cols) = (rng.between(1, 7) as u32, rng.between(1, 4) as u16);
        let (last_row, last_col) = (MAX_ROW + 1 - rows, MAX_COL + 1 - cols);
        let row = match rng.below(8) {
            0 => last_row,
            1 => rng.below(u64::from(last_row)) as u32,
            _ => 0,
        };
        let col = match rng.below(8) {
            0 => last_col,
            1 => rng.below(u64::from(last_col)) as u16,
            _ => 0,
        };
        Field { row, col, rows, cols }
    }

    pub fn at(&self, rng: &mut Rng) -> (u32, u16) {
        let row = self.row + rng.below(u64::from(self.rows)) as u32;
        (row, self.col + rng.below(u64::from(self.cols)) as u16)
    }

    pub fn coordinates(self) -> impl Iterator<Item = (u32, u16)> {
        (0..self.rows).flat_map(move |r| (0..self.cols).map(move |c| (self.row + r, self.col + c)))
    }
}

/// Which values cells hold.
#[derive(Debug, Clone, Copy)]
pub enum Flavour {
    /// Small numbers, few others.
    Plain,
    /// Any number, special ones often.
    Special,
    /// Values of every kind.
    Mixed,
    /// Values that have keys, many of them equal.
    Keys,
    /// Numbers from a short list, so that many are equal.
    Ties,
    /// The largest numbers, whose sums overflow, and the least, whose halves round.
    Extremes,
    /// Large numbers of both signs, whose differences are finite or not.
    Wide,
}

const TEXTS: [&[u8]; 14] =
    [b"", b"a", b"A", b"Ab", b"aB", b"1", b"*", b"a?", b"true", b"\xc3\xa9", b"\xc3\x89", b"z{@[`", b"\x00\x7f", b"a b"];

pub fn text(rng: &mut Rng) -> Vec<u8> {
    if rng.one_in(6) {
        return (0..rng.below(9)).map(|_| rng.below(128) as u8).collect();
    }
    rng.pick(&TEXTS).to_vec()
}

fn number_or_date(rng: &mut Rng, bits: u64) -> Value {
    if rng.one_in(4) {
        Value::Date(bits)
    } else {
        Value::Number(bits)
    }
}

fn keyed(rng: &mut Rng) -> Value {
    match rng.below(40) {
        0..=17 => {
            let bits = *rng.pick(&[0, 1 << 63, 0x3ff0_0000_0000_0000, 0x4000_0000_0000_0000, 1]);
            number_or_date(rng, bits)
        }
        18 if rng.one_in(3) => Value::Text(rng.pick(&[&b"*"[..], b"a?", b"?"]).to_vec()),
        18..=30 => Value::Text(rng.pick(&[&b"a"[..], b"A", b"b", b"1", b"", b"Ab", b"aB", b"[", b"{"]).to_vec()),
        31..=38 => Value::Bool(rng.one_in(2)),
        _ => mixed(rng),
    }
}

fn mixed(rng: &mut Rng) -> Value {
    match rng.below(10) {
        0..=4 => {
            let bits = numbers::any(rng);
            number_or_date(rng, bits)
        }
        5..=6 => Value::Text(text(rng)),
        7 => Value::Bool(rng.one_in(2)),
        8 => Value::Error,
        _ => number_or_date(rng, 0x3ff0_0000_0000_0000),
    }
}

pub fn value(rng: &mut Rng, flavour: Flavour) -> Value {
    match flavour {
        Flavour::Plain if rng.one_in(12) => mixed(rng),
        Flavour::Plain => {
            let bits = numbers::small(rng);
            number_or_date(rng, bits)
        }
        Flavour::Special => {
            let bits = if rng.one_in(3) { numbers::any(rng) } else { numbers::special(rng) };
            number_or_date(rng, bits)
        }
        Flavour::Mixed => mixed(rng),
        Flavour::Keys => keyed(rng),
        Flavour::Extremes => Value::Number(*rng.pick(&numbers::EXTREMES)),
        Flavour::Wide => Value::Number(*rng.pick(&numbers::WIDE)),
        Flavour::Ties => Value::Number((rng.below(3) as f64).to_bits()),
    }
}

fn wraps(rng: &mut Rng) -> u8 {
    match rng.below(12) {
        0 => *rng.pick(&[1, 2, 63, 64, 65, 66, 255]),
        _ => 0,
    }
}

/// Each coordinate of the field has a cell with the chance of `parts` in 8.
pub fn cells(rng: &mut Rng, field: Field, parts: u64, flavour: Flavour) -> Vec<CellAt> {
    let mut held = BTreeMap::new();
    for at in field.coordinates() {
        if rng.below(8) < parts {
            held.insert(at, (wraps(rng), value(rng, flavour)));
        }
    }
    held.into_iter().map(|((row, col), (wraps, value))| CellAt { row, col, wraps, value }).collect()
}

pub fn regions(rng: &mut Rng, field: Field, parts: u64) -> Vec<(u32, u16)> {
    let mut held: BTreeSet<(u32, u16)> = field.coordinates().filter(|_| rng.below(8) < parts).collect();
    if rng.one_in(6) {
        held.insert((rng.below(u64::from(MAX_ROW) + 1) as u32, rng.below(u64::from(MAX_COL) + 1) as u16));
    }
    held.into_iter().collect()
}

pub const NAMES: [&[u8]; 9] = [b"S", b"s", b"", b"Sheet1", b"sHEET1", b"\xc3\xa9", b"\xc3\x89", b"A\xc3\xa9", b"a\xc3\xa9"];

/// A job without rules over a small field.
pub fn sheet(rng: &mut Rng, field: Field, flavour: Flavour) -> Job {
    let (parts, shown) = (*rng.pick(&[8, 8, 7, 5, 2]), *rng.pick(&[8, 8, 7, 4]));
    Job {
        limit: *rng.pick(&[1_000_000_000_000, u64::MAX]),
        start: *rng.pick(&[0, 0, 7]),
        name: b"S".to_vec(),
        cells: cells(rng, field, parts, flavour),
        regions: regions(rng, field, shown),
        rules: Vec::new(),
    }
}
