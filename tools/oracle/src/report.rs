//! The report (document 01, 'Job and report text'; document 02 for the cells of a bar and the shape of a mark).

use std::fmt::Write;

use crate::answer::{Answer, Mark, Outcome, Refusal};
use crate::decide::decide;
use crate::layout::{Resolve, ORIGINAL};
use crate::read::read;

const NAMES: &str = "number place count actual marks deferred simplified\n";
const MARK_NAMES: &str = "region rule kind colour ppm cells shape\n";
const BAR_NAMES: &str = "region barrule ppm\n";

/// Full cells of a bar: 40 for 1,000,000 ppm, cut down, but one at least, and none for 0 ppm alone.
pub fn bar_cells(ppm: u32) -> u64 {
    match ppm {
        0 => 0,
        _ => (u64::from(ppm) * 40 / 1_000_000).max(1),
    }
}

fn mark_line(mark: &Mark) -> String {
    let [red, green, blue] = mark.colour;
    let colour = if mark.kind == 2 { "-".to_string() } else { format!("{red:02x}{green:02x}{blue:02x}") };
    let bar = if mark.kind >= 3 { format!("{} {}", mark.ppm, bar_cells(mark.ppm)) } else { "- -".to_string() };
    let shape = mark.shape.map_or("-".to_string(), |shape| shape.to_string());
    format!("{} {} {} {colour} {bar} {shape}\n", mark.region, mark.rule, mark.kind)
}

fn answered(answer: &Answer) -> String {
    let Answer { count, marks, bars, deferred, simplified } = answer;
    let mut text = format!("{NAMES}0 0 {count} 0 {} {deferred} {simplified}\n{MARK_NAMES}", marks.len());
    for mark in marks {
        text.push_str(&mark_line(mark));
    }
    text.push_str(BAR_NAMES);
    for bar in bars {
        let _ = writeln!(text, "{} {} {}", bar.region, bar.rule, bar.ppm);
    }
    text
}

pub fn print(outcome: &Outcome) -> Vec<u8> {
    let text = match outcome {
        Ok(answer) => answered(answer),
        Err(Refusal { number, place, count, actual }) => format!("{NAMES}{number} {place} {count} {actual} 0 0 0\n"),
    };
    text.into_bytes()
}

pub fn outcome_by(text: &[u8], resolve: Resolve) -> Outcome {
    decide(&read(text)?, resolve)
}

pub fn report_by(text: &[u8], resolve: Resolve) -> Vec<u8> {
    print(&outcome_by(text, resolve))
}

/// The report on a job text, as the original decides it.
pub fn report(text: &[u8]) -> Vec<u8> {
    report_by(text, ORIGINAL)
}

/// A report without the last field of its marks and of their names.
pub fn without_shapes(report: &[u8]) -> Vec<u8> {
    let lines: Vec<&[u8]> = report.split_inclusive(|&byte| byte == b'\n').collect();
    let bars = lines.iter().position(|line| *line == BAR_NAMES.as_bytes()).unwrap_or(0);
    let cut = |(at, line): (usize, &&[u8])| match line.iter().rposition(|&byte| byte == b' ') {
        Some(end) if (2..bars).contains(&at) => [&line[..end], b"\n"].concat(),
        _ => line.to_vec(),
    };
    lines.iter().enumerate().flat_map(cut).collect()
}

#[cfg(test)]
mod tests {
    use super::{bar_cells, without_shapes};

    #[test]
    fn a_bar_has_no_cells_at_0_ppm_alone() {
        let cells = [0, 1, 24_999, 25_000, 49_999, 50_000, 1_000_000, u32::MAX].map(bar_cells);
        assert_eq!(cells, [0, 1, 1, 1, 1, 2, 40, 171_798]);
    }

    #[test]
    fn shapes_are_cut_off_the_marks_alone() {
        let head = "number place count actual marks deferred simplified\n0 0 4 0 2 0 1\n";
        let bars = "region barrule ppm\n0 0 0\n1 0 1000000\n";
        let marks = "region rule kind colour ppm cells shape\n0 0 3 00ff00 0 0 0\n1 0 3 00ff00 1000000 40 0\n";
        let cut = "region rule kind colour ppm cells\n0 0 3 00ff00 0 0\n1 0 3 00ff00 1000000 40\n";
        assert_eq!(without_shapes([head, marks, bars].concat().as_bytes()), [head, cut, bars].concat().as_bytes());
        assert_eq!(without_shapes(head.as_bytes()), head.as_bytes());
    }
}
