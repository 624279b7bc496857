//! Ranges, operands and rules.

use crate::generate::numbers;
use crate::generate::sheets::{Field, NAMES};
use crate::job::{Kind, Operand, Range, Reference, Rgb24, Rule, MAX_COL, MAX_ROW};
use crate::rng::Rng;

pub const KINDS: usize = 8;

fn whole(field: Field) -> Range {
    Range { top: field.row, left: field.col, bottom: field.row + field.rows - 1, right: field.col + field.cols - 1 }
}

fn part(rng: &mut Rng, field: Field) -> Range {
    let (a, b) = (field.at(rng), field.at(rng));
    Range { top: a.0.min(b.0), left: a.1.min(b.1), bottom: a.0.max(b.0), right: a.1.max(b.1) }
}

/// Ranges at the ends of what can be written: inverted, past the grid, the whole grid.
fn odd(rng: &mut Rng, field: Field) -> Range {
    let inner = part(rng, field);
    match rng.below(8) {
        0 => Range { top: inner.bottom + 1, bottom: inner.top, ..inner },
        1 => Range { left: inner.right + 1, right: inner.left, ..inner },
        2 => Range { bottom: MAX_ROW + 1, ..inner },
        3 => Range { right: MAX_COL + 1, ..inner },
        4 => Range { top: 0, left: 0, bottom: MAX_ROW, right: MAX_COL },
        5 => Range { top: 0, left: 0, bottom: u32::MAX, right: u16::MAX },
        6 => Range { top: rng.next() as u32, left: rng.next() as u16, bottom: rng.next() as u32, right: rng.next() as u16 },
        _ => Range { bottom: inner.bottom.saturating_add(rng.below(3) as u32), ..inner },
    }
}

pub fn range(rng: &mut Rng, field: Field) -> Range {
    match rng.below(10) {
        0..=4 => whole(field),
        5..=8 => part(rng, field),
        _ => odd(rng, field),
    }
}

fn colour(rng: &mut Rng) -> Rgb24 {
    match rng.below(4) {
        0 => *rng.pick(&[[0; 3], [255; 3], [255, 0, 0], [0, 255, 0], [0, 0, 255]]),
        _ => [rng.next() as u8, rng.next() as u8, rng.next() as u8],
    }
}

fn name(rng: &mut Rng) -> Option<Vec<u8>> {
    match rng.below(8) {
        0..=4 => None,
        5 => Some(b"S".to_vec()),
        6 => Some(b"s".to_vec()),
        _ => Some(rng.pick(&NAMES).to_vec()),
    }
}

/// A reference near the field, relative ones taken from the range's first cell.
pub fn reference(rng: &mut Rng, field: Field) -> Operand {
    let (row, col) = field.at(rng);
    let far = rng.one_in(12);
    let row = if far { *rng.pick(&[0, MAX_ROW, MAX_ROW + 1, u32::MAX]) } else { row };
    let col = if far { *rng.pick(&[0, MAX_COL, MAX_COL + 1, u16::MAX]) } else { col };
    Operand::Reference(Reference { row, col, absolute: rng.below(4) as u8, name: name(rng) })
}

pub fn operand(rng: &mut Rng, field: Field) -> Operand {
    match rng.below(16) {
        0 => Operand::Unread,
        1..=6 => reference(rng, field),
        7..=8 => Operand::Literal(numbers::finite(rng, numbers::special)),
        9 => Operand::Literal(numbers::finite(rng, numbers::any)),
        _ => Operand::Literal(numbers::small(rng)),
    }
}

pub fn cell_is(rng: &mut Rng, field: Field) -> Kind {
    let op = rng.below(8) as u8;
    let second = (op <= 1).then(|| operand(rng, field));
    Kind::CellIs { op, first: operand(rng, field), second, fill: colour(rng) }
}

fn rank(rng: &mut Rng) -> Kind {
    let number = match rng.below(8) {
        0 => *rng.pick(&[0, 99, 100, 101, 1023, 1024, 1025, u32::MAX]),
        1..=3 => rng.below(101) as u32,
        _ => rng.below(8) as u32,
    };
    Kind::Rank { number, bottom: rng.one_in(2), percent: rng.one_in(2), fill: colour(rng) }
}

pub fn kind(rng: &mut Rng, field: Field, which: usize) -> Kind {
    match which {
        0 => cell_is(rng, field),
        1 => Kind::Scale2 { min: colour(rng), max: colour(rng) },
        2 => Kind::Scale3 { min: colour(rng), mid: colour(rng), max: colour(rng) },
        3 => Kind::Bar { colour: colour(rng) },
        4 => rank(rng),
        5 => Kind::Mean { below: rng.one_in(2), fill: colour(rng) },
        6 => Kind::Same { unique: rng.one_in(2), fill: colour(rng) },
        _ => {
            let op = rng.below(6) as u8;
            Kind::Expr { op, left: operand(rng, field), right: operand(rng, field), fill: colour(rng) }
        }
    }
}

fn priority(rng: &mut Rng) -> Option<u32> {
    match rng.below(8) {
        0..=3 => None,
        4..=6 => Some(rng.below(5) as u32),
        _ => Some(*rng.pick(&[0, 1, 64, 65, u32::MAX - 1, u32::MAX])),
    }
}

pub fn rule(rng: &mut Rng, field: Field, which: usize) -> Rule {
    Rule { range: range(rng, field), priority: priority(rng), stop: rng.one_in(4), imported: rng.one_in(5), kind: kind(rng, field, which) }
}

pub fn any_rule(rng: &mut Rng, field: Field) -> Rule {
    let which = rng.below(KINDS as u64) as usize;
    rule(rng, field, which)
}
