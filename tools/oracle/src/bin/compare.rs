//! Compares the static library with the original, both in this process; and its saving with a reading of the papers.

use std::process::ExitCode;

use oracle::command::{number, run_command};
use oracle::drive::{compare, Due, Progress, Run};
use oracle::generate::numbers;
use oracle::layout::{probed::probe, ORIGINAL};
use oracle::library::{wavendiru_channel, wavendiru_ratio, wavendiru_save_job, wavendiru_whole_job};
use oracle::report::{outcome_by, print};
use oracle::rng::Rng;
use oracle::saves::{self, Tally};
use oracle::stored;
use oracle::tour::Tour;

const USAGE: &str =
    "usage: compare jobs SEED COUNT [FROM] | compare saves SEED COUNT [FROM] | compare leaves SEED COUNT | compare list FILE";

fn main() -> ExitCode {
    run_command("compare", run)
}

fn run(args: &[&str]) -> Result<(), String> {
    match args {
        ["jobs", seed, count] => jobs(number(seed)?, 0, number(count)?),
        ["jobs", seed, count, from] => jobs(number(seed)?, number(from)?, number(count)?),
        ["saves", seed, count] => saves(number(seed)?, 0, number(count)?),
        ["saves", seed, count, from] => saves(number(seed)?, number(from)?, number(count)?),
        ["leaves", seed, count] => leaves(number(seed)?, number(count)?),
        ["list", file] => list(file),
        _ => Err(USAGE.to_string()),
    }
}

fn run_of(seed: u64, from: u64, count: u64) -> Result<Run, String> {
    let to = from.checked_add(count).ok_or("there are no jobs past 2^64")?;
    Ok(Run { seed, from, to })
}

fn jobs(seed: u64, from: u64, count: u64) -> Result<(), String> {
    let run = run_of(seed, from, count)?;
    let mut tour = Tour::default();
    let mut progress = Progress::new(count);
    let mut expect = |class: usize, text: &[u8]| {
        let outcome = outcome_by(text, ORIGINAL);
        tour.job(class, text, &outcome);
        Due::report(print(&outcome))
    };
    if let Some(found) = run.first_mismatch(wavendiru_whole_job, &mut expect, &mut |done| progress.at(done)) {
        return Err(found.message(seed));
    }
    print!("{}", tour.table());
    println!("\nseed {seed}, jobs {from} to {}: {count} compared, 0 mismatches, {:.0} s", run.to.saturating_sub(1), progress.seconds());
    Ok(())
}

/// Each text read and saved again.
fn saves(seed: u64, from: u64, count: u64) -> Result<(), String> {
    let run = run_of(seed, from, count)?;
    let mut tally = Tally::default();
    let mut progress = Progress::new(count);
    let mut expect = |_: usize, text: &[u8]| {
        let saving = saves::saving(text);
        tally.add(saving);
        saves::due_of(text, saving)
    };
    if let Some(found) = run.first_mismatch(wavendiru_save_job, &mut expect, &mut |done| progress.at(done)) {
        return Err(found.message(seed));
    }
    let last = run.to.saturating_sub(1);
    println!("seed {seed}, texts {from} to {last}: {}, 0 mismatches, {:.0} s", tally.line(), progress.seconds());
    Ok(())
}

fn check_ratio(value: u64, minimum: u64, maximum: u64) -> Result<(), String> {
    let [v, lo, hi] = [value, minimum, maximum].map(f64::from_bits);
    let (ours, theirs) = (unsafe { wavendiru_ratio(v, lo, hi) }, probe::ratio(v, lo, hi));
    if ours == theirs {
        return Ok(());
    }
    Err(format!("ratio(n{value:016x}; n{minimum:016x}, n{maximum:016x}) is {ours}, the original has {theirs}"))
}

fn check_channel(start: u8, end: u8, ppm: u32) -> Result<(), String> {
    let (ours, theirs) = (unsafe { wavendiru_channel(start, end, ppm) }, probe::channel(start, end, ppm));
    if ours == theirs {
        return Ok(());
    }
    Err(format!("channel({start}, {end}, {ppm}) is {ours}, the original has {theirs}"))
}

/// The two leaves that are exported: every channel at eight ratios, random channels, random ratios.
fn leaves(seed: u64, count: u64) -> Result<(), String> {
    for ppm in [0, 1, 499_999, 500_000, 500_001, 999_999, 1_000_000, u32::MAX] {
        for ends in 0..=u16::MAX {
            check_channel((ends >> 8) as u8, ends as u8, ppm)?;
        }
    }
    let mut rng = Rng::new(seed, 0);
    let mut progress = Progress::new(count);
    for done in 1..=count {
        let bits = [0; 3].map(|_| if rng.one_in(3) { numbers::special(&mut rng) } else { numbers::any(&mut rng) });
        check_ratio(bits[0], bits[1], bits[2])?;
        check_channel(rng.next() as u8, rng.next() as u8, (rng.next() >> rng.below(64)) as u32)?;
        if done % 65_536 == 0 || done == count {
            progress.at(done);
        }
    }
    println!("seed {seed}: 524288 channels of every pair of ends, {count} random channels, {count} random ratios, 0 mismatches");
    Ok(())
}

/// Replays a stored list through the library.
fn list(file: &str) -> Result<(), String> {
    let source = std::fs::read(file).map_err(|e| format!("{file}: {e}"))?;
    let entries = stored::read(&source)?;
    let mut rng = Rng::new(0, 0);
    let mut wrong = Vec::new();
    for (at, entry) in entries.iter().enumerate() {
        let due = Due::report(entry.report.clone());
        if compare(wavendiru_whole_job, &entry.job, &due, &mut rng, true).is_some() {
            wrong.push(at);
        }
    }
    println!("{} jobs, {} mismatches", entries.len(), wrong.len());
    if wrong.is_empty() {
        Ok(())
    } else {
        Err(format!("these differ: {wrong:?}"))
    }
}
