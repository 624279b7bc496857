//! The times of a job's parts on both sides.
//!
//! The library has one call from text to report. Its parts are told apart by three texts of one job: refused by the last check, refused at
//! the last charge, and answered. Of the original, deciding is its own run; reading and printing are the harness's.

use std::time::{Duration, Instant};

use oracle::answer::Refusal;
use oracle::bench_jobs::refused_by_check;
use oracle::checks::check;
use oracle::clock::Clock;
use oracle::decide::{carry_over, decide, display_cells, run, Carried};
use oracle::job::Job;
use oracle::layout::ORIGINAL;
use oracle::library::wavendiru_whole_job;
use oracle::read::read;
use oracle::report::{print, report};
use oracle::write::job_text;

/// WAVENDIRU_LONGEST_REPORT of the header.
const LONGEST_REPORT: usize = 45_033;
/// How long the parts of a job are repeated in one pass, and how often at most.
const SLICE: Duration = Duration::from_millis(60);
const TURNS: usize = 500;

/// A call on a text with bytes lent for its report; gives the report's length.
pub type Call = fn(&[u8], &mut [u8]) -> usize;

pub fn library(text: &[u8], lent: &mut [u8]) -> usize {
    // Both pointers are to slices of the lengths that the call is told.
    unsafe { wavendiru_whole_job(text.as_ptr(), text.len(), lent.as_mut_ptr(), lent.len()) }
}

pub fn lent_report() -> Vec<u8> {
    vec![1; LONGEST_REPORT]
}

/// Times of one part, in microseconds.
#[derive(Default)]
pub struct Times(Vec<f64>);

impl Times {
    pub fn add(&mut self, micros: f64) {
        self.0.push(micros);
    }

    /// The time that one call in ten stays below: of calls that were little disturbed, and not the luckiest.
    pub fn decile(&self) -> f64 {
        let mut sorted = self.0.clone();
        sorted.sort_by(f64::total_cmp);
        sorted[sorted.len() / 10]
    }
}

/// At least two turns, then as many as fit in a slice of time.
pub fn repeat(mut turn: impl FnMut()) {
    let started = Instant::now();
    let mut turns = 0;
    while turns < 2 || (turns < TURNS && started.elapsed() < SLICE) {
        turn();
        turns += 1;
    }
}

/// Microseconds of the original's own run.
pub fn deciding_time(clock: &Clock, job: &Job) -> f64 {
    let Carried { sheet, mut regions, options, start } = carry_over(job);
    let displayed = display_cells(&sheet);
    clock.micros(|| run(&sheet, &displayed, &mut regions, &options, start, ORIGINAL))
}

/// The texts of one job, by how far the library gets.
pub struct Texts {
    pub checked: Vec<u8>,
    pub decided: Vec<u8>,
    answered: Vec<u8>,
    /// That of the last one: 0, or 9 if its marks have no space.
    number: u32,
}

impl Texts {
    /// Of a job that is answered.
    pub fn new(what: &str, job: &Job) -> Result<Self, String> {
        let texts = Texts::deciding(what, job)?;
        if texts.number != 0 {
            return Err(format!("{what}: its marks have no space"));
        }
        Ok(texts)
    }

    /// Of a job that is decided to its end, whether its marks have space or not.
    pub fn deciding(what: &str, job: &Job) -> Result<Self, String> {
        let (number, count) = match decide(job, ORIGINAL) {
            Ok(answer) => (0, answer.count),
            Err(Refusal { number: 9, count, .. }) => (9, count),
            Err(refusal) => return Err(format!("{what}: {refusal:?}")),
        };
        Ok(Texts {
            checked: job_text(&refused_by_check(job)),
            decided: job_text(&Job { limit: count - 1, ..job.clone() }),
            answered: job_text(job),
            number,
        })
    }

    /// Both sides have to report the same on each text, by the number that it was made for.
    pub fn confirm(&self, what: &str, call: Call) -> Result<(), String> {
        self.confirm_by(what, call, |ours, theirs| ours == theirs)
    }

    /// The same with another notion of the same report.
    pub fn confirm_by(&self, what: &str, call: Call, same: fn(&[u8], &[u8]) -> bool) -> Result<(), String> {
        for (text, number) in [(&self.checked, 4), (&self.decided, 7), (&self.answered, self.number)] {
            let mut lent = lent_report();
            let length = call(text, &mut lent);
            let theirs = report(text);
            if !same(&lent[..length], &theirs) {
                return Err(format!("{what}: the two reports differ"));
            }
            if !theirs.starts_with(format!("number place count actual marks deferred simplified\n{number} ").as_bytes()) {
                return Err(format!("{what}: the report is not of number {number}"));
            }
        }
        Ok(())
    }
}

/// The library's times up to the end of the checks, up to the last charge, and of the whole call.
#[derive(Default)]
struct Ours {
    checked: Times,
    decided: Times,
    answered: Times,
}

/// The times of the harness but for `decided`, which is the original's own.
#[derive(Default)]
struct Theirs {
    read: Times,
    decided: Times,
    printed: Times,
    answered: Times,
}

impl Theirs {
    fn time_reading(&mut self, clock: &Clock, text: &[u8]) {
        self.read.add(clock.micros(|| read(text).map(|job| (check(&job), carry_over(&job)))));
    }

    fn time_deciding(&mut self, clock: &Clock, job: &Job) {
        self.decided.add(deciding_time(clock, job));
    }

    fn time_printing(&mut self, clock: &Clock, job: &Job, text: &[u8]) {
        let outcome = decide(job, ORIGINAL);
        self.printed.add(clock.micros(|| print(&outcome)));
        self.answered.add(clock.micros(|| report(text)));
    }
}

/// A job that is measured on both sides.
pub struct Measured {
    pub name: &'static str,
    pub cells: usize,
    pub rules: usize,
    job: Job,
    texts: Texts,
    ours: Ours,
    theirs: Theirs,
}

impl Measured {
    pub fn new(name: &'static str, job: Job) -> Result<Self, String> {
        let (cells, rules) = (job.cells.len(), job.rules.len());
        let what = format!("{name} with {cells} cells and {rules} rules");
        let texts = Texts::new(&what, &job)?;
        texts.confirm(&what, library)?;
        Ok(Measured { name, cells, rules, job, texts, ours: Ours::default(), theirs: Theirs::default() })
    }

    /// One pass. The parts take turns, so that a slow while of the machine falls on all of them, and the sides take turns, so that none of
    /// the library's calls finds the machine used to the one before.
    pub fn pass(&mut self, clock: &Clock) {
        let mut lent = lent_report();
        repeat(|| self.turn(clock, &mut lent));
    }

    fn turn(&mut self, clock: &Clock, lent: &mut [u8]) {
        let Measured { job, texts, ours, theirs, .. } = self;
        ours.checked.add(clock.micros(|| library(&texts.checked, lent)));
        theirs.time_reading(clock, &texts.answered);
        ours.decided.add(clock.micros(|| library(&texts.decided, lent)));
        theirs.time_deciding(clock, job);
        ours.answered.add(clock.micros(|| library(&texts.answered, lent)));
        theirs.time_printing(clock, job, &texts.answered);
    }

    /// Ours and theirs, as in all that follow.
    pub fn reading(&self) -> (f64, f64) {
        (self.ours.checked.decile(), self.theirs.read.decile())
    }

    pub fn deciding(&self) -> (f64, f64) {
        (self.ours.decided.decile() - self.ours.checked.decile(), self.theirs.decided.decile())
    }

    pub fn printing(&self) -> (f64, f64) {
        (self.ours.answered.decile() - self.ours.decided.decile(), self.theirs.printed.decile())
    }

    pub fn whole(&self) -> (f64, f64) {
        (self.ours.answered.decile(), self.theirs.answered.decile())
    }

    pub fn ratio(&self) -> f64 {
        let (ours, theirs) = self.deciding();
        ours / theirs
    }
}
