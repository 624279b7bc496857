//! Times of reading a job text and of saving it again, by its length, of the library alone.

use oracle::bench_jobs::{long, refused_by_check};
use oracle::clock::Clock;
use oracle::job::Job;
use oracle::library::wavendiru_save_job;
use oracle::saves::due;
use oracle::write::job_text;

use crate::measure::{repeat, Times};

fn save(text: &[u8], lent: &mut [u8]) -> usize {
    // Both pointers are to slices of the lengths that the call is told.
    unsafe { wavendiru_save_job(text.as_ptr(), text.len(), lent.as_mut_ptr(), lent.len()) }
}

/// A text, and as many bytes as the call writes on it: there is nothing behind them to be cleared.
struct Timed {
    text: Vec<u8>,
    lent: Vec<u8>,
    times: Times,
}

impl Timed {
    fn new(text: Vec<u8>) -> Result<Self, String> {
        let due = due(&text).first;
        let mut lent = vec![1; due.len()];
        let length = save(&text, &mut lent);
        if length != due.len() || lent != due {
            return Err(format!("a text of {} bytes: not what is due was saved", text.len()));
        }
        Ok(Timed { text, lent, times: Times::default() })
    }

    fn time(&mut self, clock: &Clock) {
        self.times.add(clock.micros(|| save(&self.text, &mut self.lent)));
    }
}

/// A job's text, and the same with its last region where the one before it is: that is read and checked, and refused with 4.
struct Saved {
    what: &'static str,
    whole: Timed,
    refused: Timed,
}

impl Saved {
    fn new(what: &'static str, job: &Job) -> Result<Self, String> {
        let (whole, refused) = (Timed::new(job_text(job))?, Timed::new(job_text(&refused_by_check(job)))?);
        if whole.lent != whole.text || refused.lent == refused.text {
            return Err(format!("{what}, {} bytes: the one text has to come back, the other not", whole.text.len()));
        }
        Ok(Saved { what, whole, refused })
    }

    fn pass(&mut self, clock: &Clock) {
        repeat(|| {
            self.refused.time(clock);
            self.whole.time(clock);
        });
    }

    /// Saving is a difference of two times; where it is less than a hundredth of them it is not shown.
    fn line(&self) -> String {
        let (reading, both, bytes) = (self.refused.times.decile(), self.whole.times.decile(), self.whole.text.len() as f64);
        let pair = |micros: f64| (format!("{micros:.1}"), format!("{:.2}", micros * 1e3 / bytes));
        let saving = both - reading;
        let shown = if saving < both / 100.0 { ("-".to_string(), "-".to_string()) } else { pair(saving) };
        let parts = [pair(reading), pair(both), shown];
        let (micros, by_byte) = (parts.each_ref().map(|part| part.0.as_str()), parts.each_ref().map(|part| part.1.as_str()));
        format!("{}\t{bytes}\t{}\t{}", self.what, micros.join("\t"), by_byte.join("\t"))
    }
}

const NAMES: &str = "what\tbytes\treading\treading and saving\tsaving\tns a byte, reading\tns a byte, both\tns a byte, saving";

/// About 1, 4, 16 and 64 KiB where a job can be as long: numbers end at 50, rules without names at 6.
fn all() -> Result<Vec<Saved>, String> {
    let mut list = Vec::new();
    for count in [18, 80, 324, 1_024] {
        list.push(Saved::new("cells and regions with long numbers", &long::far_numbers(count))?);
    }
    for (bytes, cells) in [(1_024, 4), (4_096, 16), (16_384, 64), (65_536, 64)] {
        list.push(Saved::new("cells with texts", &long::text_cells(bytes, cells))?);
    }
    for (bytes, rules) in [(1_024, 8), (4_096, 32), (16_384, 64), (65_536, 64)] {
        list.push(Saved::new("rules with names", &long::named_rules(bytes, rules))?);
    }
    for rules in [8, 16, 32, 64] {
        list.push(Saved::new("rules without names", &long::plain_rules(rules))?);
    }
    Ok(list)
}

/// Microseconds of processor time that one call in ten stays below, tab-separated.
pub fn table(passes: usize) -> Result<(), String> {
    let mut list = all()?;
    let clock = Clock::new();
    for pass in 1..=passes {
        eprintln!("pass {pass} of {passes}");
        list.iter_mut().for_each(|saved| saved.pass(&clock));
    }
    println!("{NAMES}");
    list.iter().for_each(|saved| println!("{}", saved.line()));
    Ok(())
}
