//! Shows that the comparison notices each damage of the original: `teeth SEED JOBS`.
//!
//! With the feature `library` a damaged original is compared with the static library, else with the undamaged original.

use std::panic::catch_unwind;
use std::process::ExitCode;

use oracle::generate::{make, CLASSES};
use oracle::layout::{Resolve, DAMAGED};
use oracle::report::report_by;
use oracle::shrink::shrink;

#[cfg(not(feature = "library"))]
fn reference(text: &[u8]) -> Vec<u8> {
    oracle::report::report(text)
}

#[cfg(feature = "library")]
fn reference(text: &[u8]) -> Vec<u8> {
    use oracle::{drive::SPACE, guarded::call, library::wavendiru_whole_job, rng::Rng};
    call(wavendiru_whole_job, text, SPACE, &mut Rng::new(0, 0)).unwrap_or_else(|fault| fault.to_string().into_bytes())
}

/// The damaged original's report; a stop of its own counts as a report of that.
fn damaged_report(text: &[u8], resolve: Resolve) -> Vec<u8> {
    catch_unwind(|| report_by(text, resolve)).unwrap_or(b"(stopped)\n".to_vec())
}

struct Noticed {
    number: u64,
    class: &'static str,
    smallest: Vec<u8>,
}

/// How often the damage shows in the jobs, and the first of them.
fn noticed(jobs: &[(usize, Vec<u8>, Vec<u8>)], resolve: Resolve) -> (u64, Option<Noticed>) {
    let mut first = None;
    let mut times = 0;
    for (number, (class, text, expected)) in jobs.iter().enumerate() {
        if damaged_report(text, resolve) == *expected {
            continue;
        }
        times += 1;
        if first.is_none() {
            let smallest = shrink(text, 3_000, &mut |text| damaged_report(text, resolve) != reference(text));
            first = Some(Noticed { number: number as u64, class: CLASSES[*class].0, smallest });
        }
    }
    (times, first)
}

fn main() -> ExitCode {
    let args: Vec<u64> = std::env::args().skip(1).filter_map(|word| word.parse().ok()).collect();
    let [seed, count] = args[..] else {
        eprintln!("usage: teeth SEED JOBS");
        return ExitCode::FAILURE;
    };
    std::panic::set_hook(Box::new(|_| ()));
    let jobs: Vec<(usize, Vec<u8>, Vec<u8>)> = (0..count)
        .map(|number| {
            let made = make(seed, number);
            let expected = reference(&made.text);
            (made.class, made.text, expected)
        })
        .collect();
    println!("seed {seed}, {count} jobs\n| damage | jobs that show it | first | its class | smallest job found |\n|---|---|---|---|---|");
    let mut missed = 0;
    for (name, resolve) in DAMAGED {
        let (times, first) = noticed(&jobs, *resolve);
        match first {
            Some(Noticed { number, class, smallest }) => {
                println!("| {name} | {times} | {number} | {class} | {} bytes |", smallest.len());
            }
            None => {
                missed += 1;
                println!("| {name} | 0 | - | - | NOT NOTICED |");
            }
        }
    }
    println!("{} damages, {missed} not noticed", DAMAGED.len());
    if missed == 0 && !DAMAGED.is_empty() {
        ExitCode::SUCCESS
    } else {
        ExitCode::FAILURE
    }
}
