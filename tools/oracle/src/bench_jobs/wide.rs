//! Duplicates among texts that are each the whole pool. No job text says so: the columns are made wide behind the reading.

use super::{kind, plain_rule, rows_range, sheet, COLUMNS};
use crate::job::{Job, Value};

/// Bytes of the one long text: 1,024 cells, their regions and 64 rules have space beside it.
const LENGTH: usize = 20_000;

/// The job that is read, and the one that it becomes.
pub struct Wide {
    pub read: Job,
    pub job: Job,
}

fn same(size: usize, rules: usize, value: impl Fn(usize) -> Vec<u8>) -> Job {
    let range = rows_range(0, 1, size / COLUMNS);
    sheet(size, |index| Value::Text(value(index)), vec![plain_rule(range, kind("same", range)); rules])
}

/// The first text and the sheet's name, which stands ahead of it, are the pool.
pub fn wide(size: usize, rules: usize) -> Wide {
    let read = same(size, rules, |index| vec![b'a'; if index == 0 { LENGTH } else { 0 }]);
    let pool = [read.name.clone(), vec![b'a'; LENGTH]].concat();
    let job = same(size, rules, |_| pool.clone());
    Wide { read, job }
}

/// By cells and rules.
pub const SIZES: [(usize, usize); 4] = [(256, 1), (256, 64), (1024, 1), (1024, 64)];

#[cfg(test)]
mod tests {
    use super::*;
    use crate::job::MAX_TEXT;
    use crate::write::job_text;

    #[test]
    fn every_job_can_be_read() {
        for (size, rules) in SIZES {
            assert!(job_text(&wide(size, rules).read).len() <= MAX_TEXT, "{size} cells, {rules} rules");
        }
    }
}
