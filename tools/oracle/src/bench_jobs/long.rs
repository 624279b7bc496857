//! Texts of rising length, and jobs with reports of rising length.

use super::{at, between, divided, plain_rule, refused_by_check, sheet, RED};
use crate::job::{CellAt, Job, Kind, Operand, Range, Reference, Rule, Value, MAX_TEXT};
use crate::write::job_text;

/// Each length is one of these shares of the greatest.
pub const SHARES: [usize; 3] = [4, 2, 1];

/// Fills the text of a job up to so many bytes, or one less: `with` makes the job from the bytes of all its names or texts.
fn filled(bytes: usize, with: impl Fn(usize) -> Job) -> Job {
    let empty = job_text(&with(0)).len();
    with((bytes - empty) / 2)
}

/// Part `index` when `bytes` are dealt out evenly.
fn dealt(bytes: usize, index: usize, parts: usize) -> Vec<u8> {
    vec![b'a'; (index + 1) * bytes / parts - index * bytes / parts]
}

fn two_regions(cells: Vec<CellAt>, rules: Vec<Rule>) -> Job {
    Job { limit: 0, start: 0, name: b"S".to_vec(), cells, regions: vec![at(0), at(1)], rules }
}

/// So many bytes, of cells with texts.
pub fn text_cells(bytes: usize, count: usize) -> Job {
    let cell = |index: usize, bytes: usize| CellAt { row: index as u32, col: 0, wraps: 0, value: Value::Text(dealt(bytes, index, count)) };
    filled(bytes, |bytes| two_regions((0..count).map(|index| cell(index, bytes)).collect(), Vec::new()))
}

/// So many bytes, of rules with two references each, by name.
pub fn named_rules(bytes: usize, count: usize) -> Job {
    let range = Range { top: 0, left: 0, bottom: 0, right: 0 };
    let named = |index: usize, bytes: usize| {
        Operand::Reference(Reference { row: 0, col: 0, absolute: 0, name: Some(dealt(bytes, index, 2 * count)) })
    };
    let kind =
        |index: usize, bytes: usize| Kind::Expr { op: 0, left: named(2 * index, bytes), right: named(2 * index + 1, bytes), fill: RED };
    let rules = |bytes: usize| (0..count).map(|index| plain_rule(range, kind(index, bytes))).collect();
    filled(bytes, |bytes| two_regions(Vec::new(), rules(bytes)))
}

/// Cells and regions in the grid's last rows and columns: the longest lines that numbers can have. At most 1,024 of each.
pub fn far_numbers(count: usize) -> Job {
    let far = |index: usize| (1_048_000 + (index / 16) as u32, 16_000 + (index % 16) as u16);
    let cell = |index: usize| {
        let (row, col) = far(index);
        CellAt { row, col, wraps: 255, value: Value::Number(0x3ff0_0000_0000_0000) }
    };
    let regions = (0..count).map(far).collect();
    Job { limit: 0, start: 0, name: b"S".to_vec(), cells: (0..count).map(cell).collect(), regions, rules: Vec::new() }
}

/// Rules with two numbers each and the longest range: the longest lines of rules that have no names.
pub fn plain_rules(count: usize) -> Job {
    let range = Range { top: 1_048_000, left: 16_000, bottom: 1_048_575, right: 16_383 };
    let rule = |_| Rule { priority: Some(u32::MAX), ..plain_rule(range, between(40.0, 60.0)) };
    two_regions(Vec::new(), (0..count).map(rule).collect())
}

/// 64 cells with texts.
pub fn texts(share: usize) -> Vec<u8> {
    job_text(&refused_by_check(&text_cells(MAX_TEXT / share, 64)))
}

/// 64 rules with two references each, by name.
pub fn names(share: usize) -> Vec<u8> {
    job_text(&refused_by_check(&named_rules(MAX_TEXT / share, 64)))
}

/// 1,024 cells and regions with long numbers, or a share of them.
pub fn numbers(share: usize) -> Vec<u8> {
    job_text(&refused_by_check(&far_numbers(1024 / share)))
}

/// The texts above with a malformed last line: refused with 11, and the number of that line is to be found.
pub fn malformed_end(share: usize) -> Vec<u8> {
    let mut text = texts(share);
    text.pop();
    text.push(b'x');
    text
}

/// A cell's row of thousands of digits: refused with 11 at the digit that makes it too great.
pub fn digits(share: usize) -> Vec<u8> {
    let job = sheet(1, |_| Value::Error, Vec::new());
    let text = job_text(&job);
    let row = text.windows(2).position(|pair| pair == b"\n0").map_or(0, |at| at + 1);
    let mut long = text[..row].to_vec();
    long.resize(MAX_TEXT / share - (text.len() - row), b'1');
    long.extend_from_slice(&text[row..]);
    long
}

/// A bar and its mark on each of 1,024 regions, or a share of them; one rule for each row.
pub fn bars(share: usize) -> Job {
    divided("bar", 1024 / share, 64 / share)
}

#[cfg(test)]
mod tests {
    use super::*;
    use crate::layout::ORIGINAL;
    use crate::report::{outcome_by, report};

    fn number_of(text: &[u8]) -> (u32, u64) {
        outcome_by(text, ORIGINAL).map_or_else(|refusal| (refusal.number, refusal.place), |_| (0, 0))
    }

    #[test]
    fn texts_are_as_long_and_as_refused_as_they_say() {
        for share in SHARES {
            let due = MAX_TEXT / share;
            for text in [texts(share), names(share)] {
                assert!(due - 1 <= text.len() && text.len() <= due && number_of(&text) == (4, 1));
            }
            assert_eq!(number_of(&numbers(share)), (4, 1024 / share as u64 - 1));
            assert!(number_of(&malformed_end(share)).0 == 11);
            assert!(digits(share).len() == due && number_of(&digits(share)) == (11, 4));
            assert!(report(&job_text(&bars(share))).starts_with(b"number place count actual marks deferred simplified\n0 "));
        }
    }
}
