//! Measures the library and the original on the same jobs, in one process.

#[cfg(feature = "before")]
mod before;
#[cfg(feature = "columns")]
mod columns;
mod goals;
mod lengths;
mod measure;
mod saves;
mod tables;

use std::process::ExitCode;

use oracle::bench_jobs::{divided, over_sheet, reasons, KINDS, RULES, SIZES, SPARING_KINDS};
use oracle::clock::Clock;
use oracle::command::{number, run_command};
use oracle::decide::{carry_over, display_cells, run, Carried};
use oracle::job::Job;
use oracle::layout::ORIGINAL;
use oracle::write::job_text;

use lengths::Length;
use measure::{lent_report, library, Measured};

const USAGE: &str = "usage: bench | bench before | bench columns [SET KIND CELLS RULES TIMES] | bench goals | bench saves \
     | bench calls library|original divided|over KIND CELLS RULES TIMES";
const PASSES: usize = 8;
/// There are more jobs with goals than in any other table.
const GOAL_PASSES: usize = 6;

fn main() -> ExitCode {
    run_command("bench", bench)
}

fn bench(args: &[&str]) -> Result<(), String> {
    match args {
        [] => all_tables(),
        #[cfg(feature = "before")]
        ["before"] => before::tables(PASSES),
        #[cfg(feature = "columns")]
        ["columns"] => columns::table(GOAL_PASSES),
        #[cfg(feature = "columns")]
        ["columns", set, kind, cells, rules, times] => columns::profile(set, kind, number(cells)?, number(rules)?, number(times)?),
        ["goals"] => goals::table(GOAL_PASSES),
        ["saves"] => saves::table(PASSES),
        ["calls", side, form, kind, cells, rules, times] => {
            calls(side, &chosen_job(form, kind, number(cells)?, number(rules)?)?, number(times)?)
        }
        _ => Err(USAGE.to_string()),
    }
}

fn divided_jobs() -> Result<Vec<Measured>, String> {
    let mut jobs = Vec::new();
    for name in KINDS {
        for rules in RULES {
            for cells in SIZES {
                jobs.push(Measured::new(name, divided(name, cells, rules))?);
            }
        }
    }
    Ok(jobs)
}

fn over_jobs() -> Result<Vec<Measured>, String> {
    let mut jobs = Vec::new();
    for name in SPARING_KINDS {
        for rules in RULES {
            jobs.push(Measured::new(name, over_sheet(name, 1024, rules))?);
        }
    }
    Ok(jobs)
}

fn reason_jobs() -> Result<Vec<Measured>, String> {
    reasons::all().into_iter().map(|(what, job)| Measured::new(what, job)).collect()
}

/// All that is measured.
struct Bench {
    divided: Vec<Measured>,
    over: Vec<Measured>,
    reasons: Vec<Measured>,
    lengths: Vec<Length>,
}

impl Bench {
    fn new() -> Result<Self, String> {
        Ok(Bench { divided: divided_jobs()?, over: over_jobs()?, reasons: reason_jobs()?, lengths: lengths::all()? })
    }

    /// Each pass goes over everything, so that a while in which the machine was slow falls on no line alone.
    fn measure(&mut self) {
        let clock = Clock::new();
        for pass in 1..=PASSES {
            eprintln!("pass {pass} of {PASSES}");
            self.divided.iter_mut().chain(&mut self.over).chain(&mut self.reasons).for_each(|job| job.pass(&clock));
            self.lengths.iter_mut().for_each(|length| length.pass(&clock));
        }
    }

    fn print(&self) {
        println!("Microseconds of processor time that one call in ten stays below, in {PASSES} passes.");
        println!("Bars: ours / Rust in deciding, a sign for each quarter, `####` is equal.\n");
        println!("Rules that divide the sheet among them.\n");
        tables::print_parts(&self.divided);
        println!("Rules that all lie over the whole sheet.\n");
        tables::print_deciding(&self.over);
        tables::print_growth(&self.divided);
        println!("Jobs that show the reasons.\n");
        tables::print_reasons(&self.reasons);
        println!("The library alone, by the length of what is read or printed.\n");
        tables::print_lengths(&self.lengths);
    }
}

fn all_tables() -> Result<(), String> {
    let mut bench = Bench::new()?;
    bench.measure();
    bench.print();
    Ok(())
}

fn chosen_job(form: &str, kind: &str, cells: u64, rules: u64) -> Result<Job, String> {
    let (cells, rules) = (cells as usize, rules as usize);
    let kinds: &[&str] = if form == "over" { &SPARING_KINDS } else { &KINDS };
    if !SIZES.contains(&cells) || !RULES.contains(&rules) || !kinds.contains(&kind) {
        return Err(format!("there is no job {form} {kind} {cells} {rules}: kinds {kinds:?}, cells {SIZES:?}, rules {RULES:?}"));
    }
    match form {
        "divided" => Ok(divided(kind, cells, rules)),
        "over" => Ok(over_sheet(kind, cells, rules)),
        _ => Err(USAGE.to_string()),
    }
}

fn call_library(job: &Job, times: u64) {
    let (text, mut lent) = (job_text(job), lent_report());
    for _ in 0..times {
        library(&text, &mut lent);
    }
}

fn call_original(job: &Job, times: u64) {
    for _ in 0..times {
        let Carried { sheet, mut regions, options, start } = carry_over(job);
        run(&sheet, &display_cells(&sheet), &mut regions, &options, start, ORIGINAL);
    }
}

/// Calls one side so many times on one job, for a profiler.
fn calls(side: &str, job: &Job, times: u64) -> Result<(), String> {
    match side {
        "library" => call_library(job, times),
        "original" => call_original(job, times),
        _ => return Err(USAGE.to_string()),
    }
    Ok(())
}
