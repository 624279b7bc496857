//! What saving a job text again comes to, by a reading of documents 01 and 02 (T-01): the same bytes, or a refused report.

use std::collections::BTreeMap;

use crate::answer::Refusal;
use crate::checks::check;
use crate::drive::Due;
use crate::read::read;
use crate::report::print;

/// The starting count of a job that is saved. No job text meets 1 or 5, and one that is read is never over the numbers of 2.
pub fn saving(text: &[u8]) -> Result<u64, Refusal> {
    let job = read(text)?;
    check(&job)?;
    Ok(job.start)
}

/// A job has one text, so what is saved is the text that was read; 13, with the length needed, where that does not fit.
pub fn due_of(text: &[u8], saving: Result<u64, Refusal>) -> Due {
    match saving {
        Ok(count) => {
            let too_long = Refusal { number: 13, place: 0, count, actual: text.len() as u64 };
            Due { first: text.to_vec(), second: print(&Err(too_long)) }
        }
        Err(refusal) => Due::report(print(&Err(refusal))),
    }
}

pub fn due(text: &[u8]) -> Due {
    due_of(text, saving(text))
}

/// How many texts come back, and how many are refused by each number, in ample space.
#[derive(Default)]
pub struct Tally {
    equal: u64,
    refused: BTreeMap<u32, u64>,
}

impl Tally {
    pub fn add(&mut self, saving: Result<u64, Refusal>) {
        match saving {
            Ok(_) => self.equal += 1,
            Err(refusal) => *self.refused.entry(refusal.number).or_default() += 1,
        }
    }

    pub fn line(&self) -> String {
        let refused: Vec<String> = self.refused.iter().map(|(number, times)| format!("{times} with {number}")).collect();
        let compared = self.equal + self.refused.values().sum::<u64>();
        let refused = if refused.is_empty() { "0".to_string() } else { refused.join(", ") };
        format!("{compared} compared, {} came back equal, refused {refused}", self.equal)
    }
}
