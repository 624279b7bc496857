//! The refusals 3 and 4 of document 01, as far as a job text can meet them: it can hold no unknown kind, no text outside the pool,
//! no bool above 1, and never more than the numbers of refusal 2.

use crate::answer::Refusal;
use crate::job::{Job, MAX_COL, MAX_ROW};

/// All of 3 before any of 4; in each, cells before regions.
pub fn check(job: &Job) -> Result<(), Refusal> {
    let cells: Vec<(u32, u16)> = job.cells.iter().map(|cell| (cell.row, cell.col)).collect();
    let off = first_off_grid(&cells).or(first_off_grid(&job.regions));
    let fall = first_fall(&cells).or(first_fall(&job.regions));
    let refused = |number: u32, place: usize| Err(Refusal { number, place: place as u64, count: job.start, actual: 0 });
    match (off, fall) {
        (Some(place), _) => refused(3, place),
        (None, Some(place)) => refused(4, place),
        (None, None) => Ok(()),
    }
}

fn first_off_grid(coordinates: &[(u32, u16)]) -> Option<usize> {
    coordinates.iter().position(|&(row, col)| row > MAX_ROW || col > MAX_COL)
}

/// The index of the first one that is not past the one before it.
fn first_fall(coordinates: &[(u32, u16)]) -> Option<usize> {
    (1..coordinates.len()).find(|&index| coordinates[index] <= coordinates[index - 1])
}
