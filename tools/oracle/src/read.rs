//! The job text, line by line (document 01, 'Job and report text'), with the refusals 10, 11 and the early 2.

use crate::answer::Refusal;
use crate::job::{CellAt, Job, CELLS_LINE, HEAD_LINE, MAX_CELLS, MAX_REGIONS, MAX_RULES, MAX_TEXT, REGIONS_LINE, RULES_LINE};
use crate::read_fields::{decimal, decimal_u16, decimal_u32, decimal_u8, fields, text, value};
use crate::read_rules::rule;

/// The lines of a text. `number` is that of the line last asked for, from 1.
struct Lines<'a> {
    rest: &'a [u8],
    number: u64,
}

impl<'a> Lines<'a> {
    /// The next line without its LF; a line that is missing or has no LF is malformed.
    fn next(&mut self) -> Result<&'a [u8], Refusal> {
        self.number += 1;
        let end = self.rest.iter().position(|&byte| byte == b'\n').ok_or(self.malformed())?;
        let line = &self.rest[..end];
        self.rest = &self.rest[end + 1..];
        Ok(line)
    }

    fn malformed(&self) -> Refusal {
        Refusal { number: 11, place: self.number, count: 0, actual: 0 }
    }

    fn names(&mut self, expected: &[u8]) -> Result<(), Refusal> {
        let line = self.next()?;
        if line == expected {
            Ok(())
        } else {
            Err(self.malformed())
        }
    }

    /// `count` lines, each read by `one`.
    fn values<T>(&mut self, count: usize, one: fn(&[u8]) -> Option<T>) -> Result<Vec<T>, Refusal> {
        let mut taken = Vec::new();
        for _ in 0..count {
            let line = self.next()?;
            taken.push(one(line).ok_or(self.malformed())?);
        }
        Ok(taken)
    }

    fn end(&mut self) -> Result<(), Refusal> {
        self.number += 1;
        if self.rest.is_empty() {
            Ok(())
        } else {
            Err(self.malformed())
        }
    }
}

/// The second line: the counts are u64, whatever may be refused later.
struct Head {
    limit: u64,
    start: u64,
    counts: [u64; 3],
    name: Vec<u8>,
}

fn head(line: &[u8]) -> Option<Head> {
    let [limit, start, cells, regions, rules, name] = fields::<6>(line)?;
    let count = |field| decimal(field, u64::MAX);
    let counts = [count(cells)?, count(regions)?, count(rules)?];
    Some(Head { limit: count(limit)?, start: count(start)?, counts, name: text(name)? })
}

fn cell(line: &[u8]) -> Option<CellAt> {
    let [row, col, wraps, held] = fields::<4>(line)?;
    Some(CellAt { row: decimal_u32(row)?, col: decimal_u16(col)?, wraps: decimal_u8(wraps, 255)?, value: value(held)? })
}

fn region(line: &[u8]) -> Option<(u32, u16)> {
    let [row, col] = fields::<2>(line)?;
    Some((decimal_u32(row)?, decimal_u16(col)?))
}

pub fn read(source: &[u8]) -> Result<Job, Refusal> {
    if source.len() > MAX_TEXT {
        return Err(Refusal { number: 10, place: 0, count: 0, actual: 0 });
    }
    let mut lines = Lines { rest: source, number: 0 };
    lines.names(HEAD_LINE)?;
    let line = lines.next()?;
    let head = head(line).ok_or(lines.malformed())?;
    let most = [MAX_CELLS as u64, MAX_REGIONS as u64, MAX_RULES as u64];
    if head.counts.iter().zip(most).any(|(&count, most)| count > most) {
        return Err(Refusal { number: 2, place: 0, count: head.start, actual: 0 });
    }
    let [cells, regions, rules] = head.counts.map(|count| count as usize);
    lines.names(CELLS_LINE)?;
    let cells = lines.values(cells, cell)?;
    lines.names(REGIONS_LINE)?;
    let regions = lines.values(regions, region)?;
    lines.names(RULES_LINE)?;
    let rules = lines.values(rules, rule)?;
    lines.end()?;
    Ok(Job { limit: head.limit, start: head.start, name: head.name, cells, regions, rules })
}
