//! Times of reading and of printing by their length, of the library alone.

use oracle::bench_jobs::long;
use oracle::clock::Clock;
use oracle::decide::decide;
use oracle::job::Job;
use oracle::layout::ORIGINAL;
use oracle::report::report;
use oracle::write::job_text;

use crate::measure::{lent_report, library, repeat, Times};

/// A text to be read, or the two texts of a job whose times differ by its printing.
pub struct Length {
    pub what: &'static str,
    pub bytes: usize,
    text: Vec<u8>,
    without: Option<Vec<u8>>,
    times: Times,
    times_without: Times,
}

impl Length {
    fn new(what: &'static str, bytes: usize, text: Vec<u8>, without: Option<Vec<u8>>) -> Result<Self, String> {
        let mut lent = lent_report();
        let length = library(&text, &mut lent);
        if lent[..length] != report(&text)[..] {
            return Err(format!("{what}, {bytes} bytes: the two reports differ"));
        }
        Ok(Length { what, bytes, text, without, times: Times::default(), times_without: Times::default() })
    }

    fn reading(what: &'static str, text: Vec<u8>) -> Result<Self, String> {
        Length::new(what, text.len(), text, None)
    }

    fn printing(what: &'static str, job: &Job) -> Result<Self, String> {
        let count = decide(job, ORIGINAL).map_err(|refusal| format!("{what}: {refusal:?}"))?.count;
        let text = job_text(job);
        let without = job_text(&Job { limit: count - 1, ..job.clone() });
        Length::new(what, report(&text).len(), text, Some(without))
    }

    pub fn pass(&mut self, clock: &Clock) {
        let mut lent = lent_report();
        repeat(|| {
            self.times.add(clock.micros(|| library(&self.text, &mut lent)));
            if let Some(without) = &self.without {
                self.times_without.add(clock.micros(|| library(without, &mut lent)));
            }
        });
    }

    pub fn micros(&self) -> f64 {
        match self.without {
            Some(_) => self.times.decile() - self.times_without.decile(),
            None => self.times.decile(),
        }
    }
}

type MakeText = fn(usize) -> Vec<u8>;

const TEXTS: [(&str, MakeText); 5] = [
    ("reading 64 cells with texts", long::texts),
    ("reading 64 rules with names", long::names),
    ("reading cells and regions with long numbers", long::numbers),
    ("reading texts up to a malformed last line", long::malformed_end),
    ("reading a row of so many digits", long::digits),
];

pub fn all() -> Result<Vec<Length>, String> {
    let mut lengths = Vec::new();
    for (what, make) in TEXTS {
        for share in long::SHARES {
            lengths.push(Length::reading(what, make(share))?);
        }
    }
    for share in long::SHARES {
        lengths.push(Length::printing("printing marks and bars", &long::bars(share))?);
    }
    Ok(lengths)
}
