//! The shapes of marks, by a reading of document 02: the original has none. They are worked out from the job, beside the original's run,
//! which only says which marks there are.

use crate::answer::Mark;
use crate::job::{CellAt, Job, Kind, Range, Rule, Value};

const MAX_WRAPS: u8 = 64;

/// Of a ratio over two ends: 0 plain, 1 flat, 2 too wide.
pub fn shape(minimum: f64, maximum: f64) -> u32 {
    if maximum <= minimum {
        return 1;
    }
    if (maximum - minimum).is_finite() {
        0
    } else {
        2
    }
}

/// What the ratios of a rule lie between: the least and the greatest value in its range, and for three colours the midpoint of all.
#[derive(Debug, Clone, Copy, PartialEq)]
pub enum Ends {
    Two { least: f64, greatest: f64 },
    Three { least: f64, midpoint: f64, greatest: f64 },
}

impl Ends {
    /// Adds 3 where a value above the midpoint uses the upper half.
    pub fn shape(self, value: f64) -> u32 {
        match self {
            Ends::Two { least, greatest } => shape(least, greatest),
            Ends::Three { midpoint, greatest, .. } if value > midpoint => 3 + shape(midpoint, greatest),
            Ends::Three { least, midpoint, .. } => shape(least, midpoint),
        }
    }
}

fn number(cell: &CellAt) -> Option<f64> {
    match cell.value {
        Value::Number(bits) | Value::Date(bits) if cell.wraps <= MAX_WRAPS => Some(f64::from_bits(bits)).filter(|value| value.is_finite()),
        _ => None,
    }
}

fn holds(range: &Range, cell: &CellAt) -> bool {
    (range.top..=range.bottom).contains(&cell.row) && (range.left..=range.right).contains(&cell.col)
}

/// The middle one of sorted values, or half of each of the two middle ones added.
pub fn midpoint(sorted: &[f64]) -> f64 {
    let middle = sorted.len() / 2;
    match sorted.len() % 2 {
        0 => sorted[middle - 1] / 2.0 + sorted[middle] / 2.0,
        _ => sorted[middle],
    }
}

/// None for a rule that is neither a scale nor a bar, and where no value is in range.
fn ends(job: &Job, rule: &Rule) -> Option<Ends> {
    let three = match rule.kind {
        Kind::Scale2 { .. } | Kind::Bar { .. } => false,
        Kind::Scale3 { .. } => true,
        Kind::CellIs { .. } | Kind::Rank { .. } | Kind::Mean { .. } | Kind::Same { .. } | Kind::Expr { .. } => return None,
    };
    let mut values: Vec<f64> = job.cells.iter().filter(|cell| holds(&rule.range, cell)).filter_map(number).collect();
    values.sort_by(f64::total_cmp);
    let (&least, &greatest) = (values.first()?, values.last()?);
    Some(if three { Ends::Three { least, midpoint: midpoint(&values), greatest } } else { Ends::Two { least, greatest } })
}

/// The number of the cell at a region, in a job whose cells rise.
fn number_at(job: &Job, region: (u32, u16)) -> Option<f64> {
    let place = job.cells.binary_search_by_key(&region, |cell| (cell.row, cell.col)).ok()?;
    number(&job.cells[place])
}

/// A shape by the ends of a rule and the value of a mark's cell.
pub type Reading = fn(Ends, f64) -> u32;

/// Gives the marks of scales and bars their shapes. The marks of one rule stand together, so that its ends are worked out once. The original
/// marks no region without a number by these rules; a damaged one may, and such a mark stays without a shape.
pub fn put_shapes(job: &Job, marks: &mut [Mark], reading: Reading) {
    for of_rule in marks.chunk_by_mut(|a, b| a.rule == b.rule) {
        let Some(ends) = ends(job, &job.rules[of_rule[0].rule]) else {
            continue;
        };
        for mark in of_rule {
            mark.shape = number_at(job, job.regions[mark.region]).map(|value| reading(ends, value));
        }
    }
}
