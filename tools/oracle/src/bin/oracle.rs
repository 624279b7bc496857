//! The oracle's commands. Each prints to standard output; a mistake ends with one line and status 1.

use std::io::{BufWriter, Read, Write};
use std::process::ExitCode;

use oracle::a1_damage::damaged_copy;
use oracle::a1_lines::{every_column, every_reference, longest_answers};
use oracle::command::{number, run_command};
use oracle::curated;
use oracle::drive::SPACE;
use oracle::generate::{class_named, make, make_in, CLASSES};
use oracle::layout::ORIGINAL;
use oracle::leaf_lines::{every_channel, every_split, line, LEAVES};
use oracle::leaves::answer;
use oracle::read::read;
use oracle::report::{outcome_by, report};
use oracle::rng::Rng;
use oracle::saves;
use oracle::stored::{self, Entry};
use oracle::tour::Tour;

const USAGE: &str = "usage: oracle report < job | saved [SPACE] < job | job SEED NUMBER [CLASS] | classes | tour SEED COUNT \
    | store SEED < curated.txt | list SEED COUNT | damage-list < list | replay < list \
    | leaves < lines | damage-lines COUNT < lines | leaf-lines LEAF SEED COUNT | leaf-lines every-split LENGTH \
    | leaf-lines every-channel | leaf-lines every-reference LENGTH | leaf-lines every-column | leaf-lines longest-answers";

fn main() -> ExitCode {
    run_command("oracle", run)
}

fn run(args: &[&str]) -> Result<(), String> {
    match args {
        ["report"] => put(&report(&input()?)),
        ["saved"] => put(saves::due(&input()?).within(SPACE)),
        ["saved", space] => put(saves::due(&input()?).within(number(space)? as usize)),
        ["job", seed, which] => put(&make(number(seed)?, number(which)?).text),
        ["job", seed, which, class] => {
            let class = class_named(class).ok_or(format!("no class {class}"))?;
            put(&make_in(number(seed)?, number(which)?, class).text)
        }
        ["classes"] => put(CLASSES.map(|class| format!("{} {}\n", class.0, class.1)).concat().as_bytes()),
        ["tour", seed, jobs] => tour(number(seed)?, number(jobs)?),
        ["store", seed] => store(number(seed)?),
        ["list", seed, jobs] => list(number(seed)?, number(jobs)?),
        ["damage-list"] => damage_list(),
        ["replay"] => replay(),
        ["leaves"] => leaves(),
        ["damage-lines", count] => damage_lines(number(count)? as usize),
        ["leaf-lines", "every-channel"] => leaf_lines(&mut |put| every_channel(put)),
        ["leaf-lines", "every-column"] => leaf_lines(&mut |put| every_column(put)),
        ["leaf-lines", "longest-answers"] => leaf_lines(&mut |put| longest_answers(put)),
        ["leaf-lines", "every-split", longest] => {
            let longest = number(longest)? as u32;
            leaf_lines(&mut |put| every_split(longest, put))
        }
        ["leaf-lines", "every-reference", longest] => {
            let longest = number(longest)? as u32;
            leaf_lines(&mut |put| every_reference(longest, put))
        }
        ["leaf-lines", leaf, seed, lines] if LEAVES.contains(leaf) => {
            let (mut rng, lines) = (Rng::new(number(seed)?, 0), number(lines)?);
            leaf_lines(&mut |put| (0..lines).for_each(|_| put(&line(&mut rng, leaf))))
        }
        _ => Err(USAGE.to_string()),
    }
}

fn input() -> Result<Vec<u8>, String> {
    let mut text = Vec::new();
    std::io::stdin().read_to_end(&mut text).map_err(|e| format!("standard input: {e}"))?;
    Ok(text)
}

fn put(bytes: &[u8]) -> Result<(), String> {
    std::io::stdout().write_all(bytes).map_err(|e| format!("standard output: {e}"))
}

/// Writes the stored list; stops if the oracle contradicts what the papers print of a curated job.
fn store(seed: u64) -> Result<(), String> {
    let source = String::from_utf8(input()?).map_err(|_| "the curated jobs are no text".to_string())?;
    let curated = curated::parse(&source)?;
    if curated.is_empty() {
        return Err("there are no curated jobs".to_string());
    }
    if let Some(wrong) = curated::contradicted(&curated).first() {
        return Err(wrong.clone());
    }
    let jobs = stored::chosen(seed, &curated);
    put_list(jobs)
}

/// Writes a list of the first jobs of a seed, for comparing with another program.
fn list(seed: u64, jobs: u64) -> Result<(), String> {
    put_list((0..jobs).map(|number| make(seed, number).text).collect())
}

fn put_list(jobs: Vec<Vec<u8>>) -> Result<(), String> {
    let entries: Vec<Entry> = jobs.into_iter().map(|job| Entry { report: report(&job), job }).collect();
    put(&stored::write(&entries))
}

/// Writes a copy of a list with some reports damaged, and their numbers to standard error.
fn damage_list() -> Result<(), String> {
    let mut entries = stored::read(&input()?)?;
    let damaged = stored::damage(&mut entries);
    eprintln!("{} of {} damaged: {damaged:?}", damaged.len(), entries.len());
    put(&stored::write(&entries))
}

/// Replays a list with the oracle.
fn replay() -> Result<(), String> {
    let entries = stored::read(&input()?)?;
    let wrong: Vec<usize> = (0..entries.len()).filter(|&at| report(&entries[at].job) != entries[at].report).collect();
    put(format!("{} jobs, {} mismatches\n", entries.len(), wrong.len()).as_bytes())?;
    if wrong.is_empty() {
        Ok(())
    } else {
        Err(format!("these differ: {wrong:?}"))
    }
}

/// Answers argument lines, one line for each.
fn leaves() -> Result<(), String> {
    let mut out = BufWriter::new(std::io::stdout().lock());
    for (index, line) in std::io::stdin().lines().enumerate() {
        let line = line.map_err(|e| format!("standard input: {e}"))?;
        let answer = answer(&line).ok_or(format!("line {} is none of the leaves' lines: {line}", index + 1))?;
        writeln!(out, "{answer}").map_err(|e| format!("standard output: {e}"))?;
    }
    out.flush().map_err(|e| format!("standard output: {e}"))
}

/// Writes damaged copies of some `typed` lines.
fn damage_lines(count: usize) -> Result<(), String> {
    let lines = String::from_utf8(input()?).map_err(|_| "the lines are no text".to_string())?;
    let damaged = damaged_copy(&lines.lines().collect::<Vec<_>>(), count);
    leaf_lines(&mut |put| damaged.iter().for_each(|line| put(line)))
}

/// Writes the lines that `make` hands over.
fn leaf_lines(make: &mut dyn FnMut(&mut dyn FnMut(&str))) -> Result<(), String> {
    let mut out = BufWriter::new(std::io::stdout().lock());
    let mut failed = None;
    make(&mut |line| failed = failed.take().or(writeln!(out, "{line}").err()));
    let flushed = out.flush().err();
    failed.or(flushed).map_or(Ok(()), |e| Err(format!("standard output: {e}")))
}

/// Decides generated jobs and counts what they reach.
fn tour(seed: u64, jobs: u64) -> Result<(), String> {
    let mut tour = Tour::default();
    for number in 0..jobs {
        let made = make(seed, number);
        let outcome = outcome_by(&made.text, ORIGINAL);
        tour.job(made.class, &made.text, &outcome);
        if let (Ok(job), Ok(_)) = (read(&made.text), &outcome) {
            tour.rules(&job);
        }
    }
    put(tour.table().as_bytes())
}
