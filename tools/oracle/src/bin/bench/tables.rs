//! The tables that `bench` prints.

use oracle::bench_jobs::{KINDS, RULES, SIZES};

use crate::lengths::Length;
use crate::measure::Measured;

/// One sign for each quarter of the ratio, at most 80.
fn bar(ratio: f64) -> String {
    let signs = (ratio * 4.0).round().max(0.0) as usize;
    if signs > 80 {
        "#".repeat(80) + ">"
    } else {
        "#".repeat(signs)
    }
}

fn pair((ours, theirs): (f64, f64)) -> String {
    format!("{ours:.1} | {theirs:.1}")
}

/// Printing is a difference of two times; where it is less than a hundredth of them it is not shown.
fn printing_pair(measured: &Measured) -> String {
    let (ours, theirs) = measured.printing();
    if ours < measured.whole().0 / 100.0 {
        return format!("- | {theirs:.1}");
    }
    pair((ours, theirs))
}

fn deciding_columns(measured: &Measured) -> String {
    let Measured { name, cells, rules, .. } = measured;
    format!("| {name} | {cells} | {rules} | {} | {:.2} |", pair(measured.deciding()), measured.ratio())
}

fn print_head(names: &[&str]) {
    println!("| {} |\n|{}", names.join(" | "), "---|".repeat(names.len()));
}

/// One line for each job, with all parts.
pub fn print_parts(jobs: &[Measured]) {
    let parts = ["reading", "harness", "printing", "harness", "whole", "harness"];
    print_head(&[&["rules of", "cells", "rules", "deciding", "Rust", "ratio"], &parts[..], &["bar"]].concat());
    for measured in jobs {
        let parts = [pair(measured.reading()), printing_pair(measured), pair(measured.whole())].join(" | ");
        println!("{} {parts} | `{}` |", deciding_columns(measured), bar(measured.ratio()));
    }
    println!();
}

/// One line for each job, with deciding alone: beside it the other parts are less than what two runs differ by.
pub fn print_deciding(jobs: &[Measured]) {
    print_head(&["rules of", "cells", "rules", "deciding", "Rust", "ratio", "bar"]);
    for measured in jobs {
        println!("{} `{}` |", deciding_columns(measured), bar(measured.ratio()));
    }
    println!();
}

/// One line for each job that shows a reason.
pub fn print_reasons(jobs: &[Measured]) {
    print_head(&["job", "deciding", "Rust"]);
    for measured in jobs {
        println!("| {} | {} |", measured.name, pair(measured.deciding()));
    }
    println!();
}

fn found<'a>(jobs: &'a [Measured], name: &str, cells: usize, rules: usize) -> &'a Measured {
    let same = |job: &&Measured| job.name == name && job.cells == cells && job.rules == rules;
    jobs.iter().find(same).expect("every job of the table is measured")
}

/// Second time by first and third by second, of ours and of theirs.
fn steps(three: [&Measured; 3]) -> String {
    let times = three.map(Measured::deciding);
    let step = |at: usize| [times[at + 1].0 / times[at].0, times[at + 1].1 / times[at].1];
    let ([ours, theirs], [later_ours, later_theirs]) = (step(0), step(1));
    format!("{ours:.1} | {later_ours:.1} | {theirs:.1} | {later_theirs:.1}")
}

/// How deciding grows with cells and regions, and with rules.
pub fn print_growth(jobs: &[Measured]) {
    println!("Deciding, times the value before, from 64 to 256 and from 256 to 1,024 cells and regions (4.0 is linear).\n");
    print_head(&["rules of", "rules", "ours, to 256", "to 1,024", "Rust, to 256", "to 1,024"]);
    for name in KINDS {
        for rules in RULES {
            println!("| {name} | {rules} | {} |", steps(SIZES.map(|cells| found(jobs, name, cells, rules))));
        }
    }
    println!("\nDeciding, times the value before, from 1 to 8 and from 8 to 64 rules that divide the sheet.\n");
    print_head(&["rules of", "cells", "ours, to 8", "to 64", "Rust, to 8", "to 64"]);
    for name in KINDS {
        for cells in SIZES {
            println!("| {name} | {cells} | {} |", steps(RULES.map(|rules| found(jobs, name, cells, rules))));
        }
    }
    println!();
}

/// Times by length, ours alone.
pub fn print_lengths(lengths: &[Length]) {
    print_head(&["what", "bytes", "microseconds", "nanoseconds a byte"]);
    for length in lengths {
        let micros = length.micros();
        println!("| {} | {} | {micros:.1} | {:.2} |", length.what, length.bytes, micros * 1e3 / length.bytes as f64);
    }
}
