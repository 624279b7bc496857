//! Sheets made to be slow: equal texts, texts that share one code, values in orders that a sort may dislike, and references whose cells lie
//! far from one another. Texts that are each the whole pool are not here: in a job text every cell brings bytes of its own.

use super::{kind, number, one_code, plain_rule, rows_range, sheet, sheet_at, COLUMNS, RED};
use crate::job::{Job, Kind, Operand, Range, Reference, Value};

/// Bytes of a text: as many as 1,024 of them can have beside 64 rules.
const LENGTH: usize = 23;

/// A name, and a job with one rule.
pub type Hostile = (&'static str, Job);

fn whole(size: usize) -> Range {
    rows_range(0, 1, size / COLUMNS)
}

fn same(size: usize, value: impl Fn(usize) -> Vec<u8>) -> Job {
    let range = whole(size);
    sheet(size, |index| Value::Text(value(index)), vec![plain_rule(range, kind("same", range))])
}

/// Of 1,024 texts 1,000 are equal; the others differ from them in their last letters alone.
fn equal_or_not(index: usize, size: usize) -> Vec<u8> {
    let mut text = vec![b'a'; LENGTH];
    if index >= size * 1000 / 1024 {
        text.splice(LENGTH - 4.., format!("{index:04}").into_bytes());
    }
    text
}

fn texts(size: usize) -> Vec<Hostile> {
    vec![
        ("same, 1,000 of 1,024 texts equal", same(size, |index| equal_or_not(index, size))),
        ("same, all texts of one code", same(size, |index| one_code::text(index, LENGTH))),
    ]
}

/// How values stand: the value of a cell by its index and the number of cells.
type Order = fn(usize, usize) -> usize;

const ORDERS: [([&str; 3], Order); 4] = [
    (["rank, rising", "scale3, rising", "same, rising"], |index, _| index),
    (["rank, falling", "scale3, falling", "same, falling"], |index, size| size - index),
    (["rank, all equal", "scale3, all equal", "same, all equal"], |_, _| 7),
    (["rank, 0 and 1", "scale3, 0 and 1", "same, 0 and 1"], |index, _| index % 2),
];

fn ordered_kind(name: &str, size: usize) -> Kind {
    match name.split(',').next() {
        Some("rank") => Kind::Rank { number: size as u32 / 2, bottom: false, percent: false, fill: RED },
        first => kind(first.unwrap_or(name), whole(size)),
    }
}

fn ordered(name: &'static str, order: Order, size: usize) -> Hostile {
    let rule = plain_rule(whole(size), ordered_kind(name, size));
    (name, sheet(size, |index| number(order(index, size) as f64), vec![rule]))
}

fn orders(size: usize) -> Vec<Hostile> {
    ORDERS.iter().flat_map(|(names, order)| names.map(|name| ordered(name, *order, size))).collect()
}

fn reference(row: u32, col: u16, absolute: u8) -> Operand {
    Operand::Reference(Reference { row, col, absolute, name: None })
}

/// At least what the first row has in the region's column.
fn against_first_row(places: Vec<(u32, u16)>) -> Job {
    let (bottom, right) = places[places.len() - 1];
    let range = Range { top: 0, left: 0, bottom, right };
    let size = places.len();
    let kind = Kind::CellIs { op: 6, first: reference(0, 0, 1), second: None, fill: RED };
    sheet_at(places, |index| number((index * 397 % size) as f64), vec![plain_rule(range, kind)])
}

/// Four rows.
fn wide(size: usize) -> Vec<(u32, u16)> {
    let columns = size / 4;
    (0..size).map(|index| ((index / columns) as u32, (index % columns) as u16)).collect()
}

/// Half of the cells in the first row, and below it only cells in its first and last column.
fn ends(size: usize) -> Vec<(u32, u16)> {
    let last = size as u16 / 2 - 1;
    let first_row = (0..=last).map(|column| (0, column));
    first_row.chain((1..=size as u32 / 4).flat_map(|row| [(row, 0), (row, last)])).collect()
}

/// The sheet's first cell is less than its last.
fn first_and_last(size: usize) -> Job {
    let range = whole(size);
    let kind = Kind::Expr { op: 2, left: reference(0, 0, 3), right: reference(range.bottom, range.right, 3), fill: RED };
    sheet(size, |index| number(index as f64), vec![plain_rule(range, kind)])
}

fn references(size: usize) -> Vec<Hostile> {
    vec![
        ("cellis, the column's first cell in a wide sheet", against_first_row(wide(size))),
        ("cellis, the first row's first and last cell in turn", against_first_row(ends(size))),
        ("expr, the sheet's first and last cell", first_and_last(size)),
    ]
}

/// With so many cells, regions and rules.
pub fn all(size: usize, rules: usize) -> Vec<Hostile> {
    let repeated = |(name, mut job): Hostile| {
        job.rules = vec![job.rules[0].clone(); rules];
        (name, job)
    };
    [texts(size), orders(size), references(size)].concat().into_iter().map(repeated).collect()
}

#[cfg(test)]
mod tests {
    use super::*;
    use crate::decide::decide;
    use crate::job::MAX_TEXT;
    use crate::layout::ORIGINAL;
    use crate::write::job_text;

    fn marks(job: &Job) -> usize {
        decide(job, ORIGINAL).map_or_else(|refusal| panic!("{refusal:?}"), |answer| answer.marks.len())
    }

    #[test]
    fn texts_are_as_long_as_they_can_be() {
        for (name, job) in all(1024, 64).into_iter().take(2) {
            let length = job_text(&job).len();
            assert!(MAX_TEXT - 2 * 1024 < length && length <= MAX_TEXT, "{name}: {length} bytes");
        }
    }

    #[test]
    fn texts_are_equal_where_they_say() {
        for (size, equal) in [(256, 250), (1024, 1000)] {
            let found: Vec<usize> = texts(size).iter().map(|(_, job)| marks(job)).collect();
            assert_eq!(found, [equal, 0]);
        }
    }

    #[test]
    fn values_stand_in_their_order() {
        let due = [[512, 1024, 0], [512, 1024, 0], [1024, 1024, 1024], [512, 1024, 1024]].concat();
        let found: Vec<usize> = orders(1024).iter().map(|(_, job)| marks(job)).collect();
        assert_eq!(found, due);
    }

    #[test]
    fn sheets_have_so_many_cells_and_rise() {
        for size in [256, 1024] {
            for places in [wide(size), ends(size)] {
                assert!(places.len() == size && places.is_sorted());
            }
        }
        assert_eq!(ends(1024)[510..516], [(0, 510), (0, 511), (1, 0), (1, 511), (2, 0), (2, 511)]);
    }
}
