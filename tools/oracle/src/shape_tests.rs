//! The shapes that document 02 asks for, and that wrong readings of it show in generated jobs.

use crate::decide::decide;
use crate::generate::{class_named, make, make_in, numbers};
use crate::job::{CellAt, Job, Kind, Range, Rule, Value};
use crate::layout::{probed::probe, ORIGINAL};
use crate::read::read;
use crate::report::print;
use crate::rng::Rng;
use crate::shape::{midpoint, put_shapes, shape, Ends, Reading};

/// The largest finite number.
const F: f64 = f64::MAX;

const BAR: Kind = Kind::Bar { colour: [0, 255, 0] };
const SCALE2: Kind = Kind::Scale2 { min: [255, 0, 0], max: [0, 0, 255] };
const SCALE3: Kind = Kind::Scale3 { min: [255, 0, 0], mid: [0, 255, 0], max: [0, 0, 255] };
const RANK: Kind = Kind::Rank { number: 9, bottom: false, percent: false, fill: [1, 2, 3] };

/// One rule over one column of numbers, each with its region.
fn column(values: &[f64], kind: Kind, imported: bool) -> Job {
    let rows = 0..values.len() as u32;
    let cell = |row: u32| CellAt { row, col: 0, wraps: 0, value: Value::Number(values[row as usize].to_bits()) };
    let range = Range { top: 0, left: 0, bottom: 9, right: 0 };
    Job {
        limit: 100,
        start: 0,
        name: Vec::new(),
        cells: rows.clone().map(cell).collect(),
        regions: rows.map(|row| (row, 0)).collect(),
        rules: vec![Rule { range, priority: None, stop: false, imported, kind }],
    }
}

fn shapes(values: &[f64], kind: Kind) -> Vec<u32> {
    decide(&column(values, kind, false), ORIGINAL).unwrap().marks.iter().filter_map(|mark| mark.shape).collect()
}

#[test]
fn two_ends() {
    assert_eq!(shapes(&[5.0, 5.0], BAR), [1, 1]);
    assert_eq!(shapes(&[5.0], SCALE2), [1]);
    assert_eq!(shapes(&[-F, F], BAR), [2, 2]);
    assert_eq!(shapes(&[F, 0.0, -F], SCALE2), [2, 2, 2]);
    assert_eq!(shapes(&[1.0, 2.0, 3.0], BAR), [0, 0, 0]);
    assert_eq!(shapes(&[-0.0, 0.0], BAR), [1, 1]);
    assert_eq!(shapes(&[0.0, F], BAR), [0, 0]);
}

/// 3 more in the upper half. Flat and too wide are asked of the half that is used.
#[test]
fn three_ends() {
    assert_eq!(shapes(&[1.0, 2.0, 3.0], SCALE3), [0, 0, 3]);
    assert_eq!(shapes(&[1.0, 1.0, 2.0], SCALE3), [1, 1, 3]);
    assert_eq!(shapes(&[1.0, 2.0, 2.0], SCALE3), [0, 0, 0]);
    assert_eq!(shapes(&[-F, -F, F], SCALE3), [1, 1, 5]);
    assert_eq!(shapes(&[-F, F, F], SCALE3), [2, 2, 2]);
    assert_eq!(shapes(&[-F, F / 2.0, F], SCALE3), [2, 2, 3]);
    assert_eq!(shapes(&[-F, -F / 2.0, F], SCALE3), [0, 0, 5]);
    assert_eq!(shapes(&[-F, F], SCALE3), [0, 3]);
    assert_eq!(shapes(&[7.0], SCALE3), [1]);
}

/// The lines of the marks in a report.
fn lines(values: &[f64], kind: Kind, imported: bool) -> Vec<String> {
    let report = print(&decide(&column(values, kind, imported), ORIGINAL));
    let lines: Vec<String> = String::from_utf8(report).unwrap().lines().map(str::to_string).collect();
    assert_eq!(lines[2], "region rule kind colour ppm cells shape");
    lines[3..].iter().take_while(|line| *line != "region barrule ppm").cloned().collect()
}

/// Last on the line. An imported scale has no colour, but a shape; other rules have none.
#[test]
fn printed() {
    assert_eq!(lines(&[5.0, 5.0], BAR, false), ["0 0 3 00ff00 1000000 40 1", "1 0 3 00ff00 1000000 40 1"]);
    assert_eq!(lines(&[-F, F], BAR, true), ["0 0 4 00ff00 0 0 2", "1 0 4 00ff00 0 0 2"]);
    assert_eq!(lines(&[1.0, 2.0], SCALE2, true), ["0 0 2 - - - 0", "1 0 2 - - - 0"]);
    assert_eq!(lines(&[1.0, 1.0, 2.0], SCALE3, true), ["0 0 2 - - - 1", "1 0 2 - - - 1", "2 0 2 - - - 3"]);
    assert_eq!(lines(&[1.0], RANK, false), ["0 0 1 010203 - - -"]);
    assert_eq!(lines(&[1.0], RANK, true), ["0 0 2 - - - -"]);
}

/// The halves of large numbers are exact and their difference is finite: it says whether that of the numbers is.
#[test]
fn too_wide_by_halves() {
    let mut rng = Rng::new(3, 0);
    let mut counts = [0; 2];
    for _ in 0..100_000 {
        let [low, high] = [-1.0, 1.0].map(|sign| sign * f64::from_bits(0x7fd0_0000_0000_0000 + rng.below(0x0020_0000_0000_0000)));
        let wide = high / 2.0 - low / 2.0 >= 2f64.powi(1023);
        assert_eq!(shape(low, high), if wide { 2 } else { 0 }, "{low:e} {high:e}");
        counts[usize::from(wide)] += 1;
    }
    assert!(counts.iter().all(|&count| count > 10_000), "{counts:?}");
    let tie = 2f64.powi(970);
    assert_eq!([shape(-tie, F), shape(-tie.next_down(), F), shape(-F, tie), shape(-F, tie.next_down())], [2, 0, 2, 0]);
}

#[test]
fn the_midpoint_is_the_originals() {
    let mut rng = Rng::new(4, 0);
    for _ in 0..20_000 {
        let mut values: Vec<f64> = (0..rng.between(1, 9)).map(|_| f64::from_bits(numbers::finite(&mut rng, numbers::any))).collect();
        values.sort_by(f64::total_cmp);
        assert_eq!(midpoint(&values).to_bits(), probe::midpoint(&values).to_bits(), "{values:?}");
    }
}

/// The shape in the upper half without the 3.
fn without_three(ends: Ends, value: f64) -> u32 {
    ends.shape(value) % 3
}

/// Flat and too wide asked of the whole span.
fn of_the_whole(ends: Ends, value: f64) -> u32 {
    match ends {
        Ends::Three { least, midpoint, greatest } => shape(least, greatest) + if value > midpoint { 3 } else { 0 },
        _ => ends.shape(value),
    }
}

fn midpoint_in_the_upper_half(ends: Ends, value: f64) -> u32 {
    match ends {
        Ends::Three { midpoint, greatest, .. } if value == midpoint => 3 + shape(midpoint, greatest),
        _ => ends.shape(value),
    }
}

/// The upper half taken for the lower one.
fn lower_half_alone(ends: Ends, value: f64) -> u32 {
    match ends {
        Ends::Three { least, midpoint, .. } => ends.shape(value) / 3 * 3 + shape(least, midpoint),
        _ => ends.shape(value),
    }
}

fn never_flat(ends: Ends, value: f64) -> u32 {
    let shape = ends.shape(value);
    if shape % 3 == 1 {
        shape - 1
    } else {
        shape
    }
}

fn never_too_wide(ends: Ends, value: f64) -> u32 {
    let shape = ends.shape(value);
    if shape % 3 == 2 {
        shape - 2
    } else {
        shape
    }
}

fn upper_half_never_too_wide(ends: Ends, value: f64) -> u32 {
    match ends.shape(value) {
        5 => 3,
        shape => shape,
    }
}

const WRONG: [(&str, Reading); 7] = [
    ("without 3", without_three),
    ("of the whole span", of_the_whole),
    ("midpoint in the upper half", midpoint_in_the_upper_half),
    ("the lower half alone", lower_half_alone),
    ("never flat", never_flat),
    ("never too wide", never_too_wide),
    ("the upper half never too wide", upper_half_never_too_wide),
];

/// How many of the job texts show each wrong reading.
fn noticed(texts: impl Iterator<Item = Vec<u8>>) -> [u32; WRONG.len()] {
    let mut noticed = WRONG.map(|_| 0);
    for job in texts.filter_map(|text| read(&text).ok()) {
        let Ok(answer) = decide(&job, ORIGINAL) else {
            continue;
        };
        for ((_, reading), times) in WRONG.iter().zip(&mut noticed) {
            let mut marks = answer.marks.clone();
            put_shapes(&job, &mut marks, *reading);
            *times += u32::from(marks != answer.marks);
        }
    }
    noticed
}

/// As `teeth` does it for the original: each wrong reading shows in some of 3,000 jobs, and often among those with special numbers.
#[test]
fn wrong_readings_are_noticed() {
    let specials = class_named("specials").unwrap();
    let among_all = noticed((0..3_000).map(|number| make(1, number).text));
    let among_specials = noticed((0..3_000).map(|number| make_in(1, number, specials).text));
    for ((name, _), (all, special)) in WRONG.iter().zip(among_all.into_iter().zip(among_specials)) {
        assert!(all > 0 && special > 9, "{name}: {all}, {special}");
    }
}
