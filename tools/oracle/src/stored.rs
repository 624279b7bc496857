//! The stored list: `job N`, N bytes, `report M`, M bytes, over and over, then `end COUNT`. Each of these words starts right after the
//! bytes before it, and its line ends in LF.

use std::collections::BTreeSet;

use crate::curated::Curated;
use crate::generate::{make_in, CLASSES};
use crate::report::report;

pub struct Entry {
    pub job: Vec<u8>,
    pub report: Vec<u8>,
}

/// How many jobs of a class are stored, and how long their texts may be.
fn share(class: &str) -> (usize, usize) {
    match class {
        "marks" => (3, 65_536),
        "largest" => (2, 65_536),
        "largedamaged" => (1, 65_536),
        "long" => (2, 70_000),
        "plain" | "overlap" | "specials" | "fields" => (20, 1_500),
        _ => (12, 1_500),
    }
}

/// Jobs of one class whose reports differ from each other.
fn of_class(seed: u64, class: usize) -> Vec<Vec<u8>> {
    let (wanted, longest) = share(CLASSES[class].0);
    let mut reports = BTreeSet::new();
    let mut jobs = Vec::new();
    for number in 0..100_000 {
        if jobs.len() == wanted {
            break;
        }
        let text = make_in(seed, number, class).text;
        if text.len() <= longest && reports.insert((text.len() > 65_536, report(&text))) {
            jobs.push(text);
        }
    }
    jobs
}

/// The curated jobs, three that a file of lines cannot hold, and jobs of every class.
pub fn chosen(seed: u64, curated: &[Curated]) -> Vec<Vec<u8>> {
    let mut jobs: Vec<Vec<u8>> = curated.iter().map(|job| job.text.clone()).collect();
    let mut without_end = curated[0].text.clone();
    without_end.pop();
    jobs.push(without_end);
    jobs.push(Vec::new());
    jobs.push(vec![b'\n'; 65_537]);
    for class in 0..CLASSES.len() {
        jobs.extend(of_class(seed, class));
    }
    jobs
}

pub fn write(entries: &[Entry]) -> Vec<u8> {
    let mut list = Vec::new();
    for Entry { job, report } in entries {
        list.extend_from_slice(format!("job {}\n", job.len()).as_bytes());
        list.extend_from_slice(job);
        list.extend_from_slice(format!("report {}\n", report.len()).as_bytes());
        list.extend_from_slice(report);
    }
    list.extend_from_slice(format!("end {}\n", entries.len()).as_bytes());
    list
}

struct Source<'a> {
    rest: &'a [u8],
}

impl<'a> Source<'a> {
    /// A line `WORD NUMBER`.
    fn line(&mut self) -> Result<(&'a str, usize), String> {
        let bad = || "the list is damaged: a line with a length is missing".to_string();
        let end = self.rest.iter().take(40).position(|&byte| byte == b'\n').ok_or_else(bad)?;
        let line = std::str::from_utf8(&self.rest[..end]).map_err(|_| bad())?;
        self.rest = &self.rest[end + 1..];
        let (word, number) = line.split_once(' ').ok_or_else(bad)?;
        Ok((word, number.parse().map_err(|_| bad())?))
    }

    fn bytes(&mut self, length: usize) -> Result<Vec<u8>, String> {
        if self.rest.len() < length {
            return Err("the list is damaged: it ends inside an entry".to_string());
        }
        let (taken, rest) = self.rest.split_at(length);
        self.rest = rest;
        Ok(taken.to_vec())
    }
}

pub fn read(list: &[u8]) -> Result<Vec<Entry>, String> {
    let mut source = Source { rest: list };
    let mut entries = Vec::new();
    loop {
        match source.line()? {
            ("job", length) => {
                let job = source.bytes(length)?;
                let ("report", length) = source.line()? else {
                    return Err(format!("the list is damaged: job {} has no report", entries.len()));
                };
                entries.push(Entry { job, report: source.bytes(length)? });
            }
            ("end", count) if count == entries.len() && source.rest.is_empty() => return Ok(entries),
            ("end", _) => return Err("the list is damaged: its end has another count, or more follows".to_string()),
            (word, _) => return Err(format!("the list is damaged: {word:?} starts no entry")),
        }
    }
}

/// Where the shape of the first mark stands: at the end of the fourth line, unless the names of the bars do.
fn first_shape(report: &[u8]) -> Option<usize> {
    let ends: Vec<usize> = (0..report.len()).filter(|&at| report[at] == b'\n').take(4).collect();
    match ends[..] {
        [_, _, names, mark] if !report[names + 1..].starts_with(b"region ") => Some(mark - 1),
        _ => None,
    }
}

/// Damages every 29th report in one of five ways; gives their numbers.
pub fn damage(entries: &mut [Entry]) -> Vec<usize> {
    let mut damaged = Vec::new();
    for (number, entry) in entries.iter_mut().enumerate().filter(|(number, _)| number % 29 == 13) {
        let report = &mut entry.report;
        let middle = report.len() / 2;
        let shape = first_shape(report).unwrap_or(middle);
        match number % 5 {
            0 => report.extend_from_slice(b"0 0 0\n"),
            1 => drop(report.pop()),
            2 => report[middle] ^= 1,
            3 => report[shape] ^= 1,
            // A digit of the second line: the number itself.
            _ => report[52] = if report[52] == b'0' { b'1' } else { b'0' },
        }
        damaged.push(number);
    }
    damaged
}

#[cfg(test)]
mod tests {
    use super::*;

    #[test]
    fn lists_come_back_and_damage_is_seen() {
        let entries = |count: usize| -> Vec<Entry> {
            (0..count).map(|number| make_in(1, number as u64, 0).text).map(|job| Entry { report: report(&job), job }).collect()
        };
        let list = write(&entries(150));
        let mut back = read(&list).unwrap();
        assert!(back.iter().zip(entries(150)).all(|(a, b)| a.job == b.job && a.report == b.report));
        let damaged = damage(&mut back);
        let seen: Vec<usize> = (0..150).filter(|&at| report(&back[at].job) != back[at].report).collect();
        assert_eq!((damaged.len(), damaged), (5, seen));
        assert!(read(&list[..list.len() - 3]).is_err());
        assert!(read(&list[1..]).is_err());
        assert!(read(&[&list[..], b"end 150\n"].concat()).is_err());
    }
}
