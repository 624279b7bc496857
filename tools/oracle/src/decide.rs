//! Lets the original decide a job, and lists what it did as document 01's marks and bars.

use std::collections::{BTreeMap, HashMap};

use crate::answer::{Answer, Bar, Mark, Outcome, Refusal};
use crate::carry;
use crate::checks::check;
use crate::error::RenderError;
use crate::job::{Job, Rgb24, MAX_MARKS};
use crate::layout::{CellCoordinate, Region, RenderOptions, Resolve, Warnings};
use crate::observe::{self, Event, Layer};
use crate::shape::{put_shapes, Ends};
use crate::{DisplayCell, Sheet};

/// A job carried over, ready for the original.
pub struct Carried {
    pub sheet: Sheet,
    pub regions: Vec<Region>,
    pub options: RenderOptions,
    pub start: u64,
}

pub fn carry_over(job: &Job) -> Carried {
    Carried { sheet: carry::sheet(job), regions: carry::regions(job), options: carry::options(job), start: job.start }
}

/// What the original's run leaves.
pub struct Left {
    result: Result<bool, RenderError>,
    warnings: Warnings,
    count: u64,
}

pub type Displayed<'a> = BTreeMap<CellCoordinate, DisplayCell<'a>>;

pub fn display_cells(sheet: &Sheet) -> Displayed<'_> {
    let mut displayed = BTreeMap::new();
    for &(row, col, ref value) in &sheet.cells {
        displayed.insert(CellCoordinate { row, col }, DisplayCell { row, col, value });
    }
    displayed
}

/// The original's run and nothing else.
pub fn run(sheet: &Sheet, displayed: &Displayed, regions: &mut [Region], options: &RenderOptions, start: u64, resolve: Resolve) -> Left {
    observe::start();
    let mut warnings = Warnings::default();
    let mut count = start;
    let result = resolve(sheet, displayed, regions, options, &mut warnings, &mut count, false);
    Left { result, warnings, count }
}

/// The checks of document 01, then the original's run, then refusal 9, else the shapes of its marks.
pub fn decide(job: &Job, resolve: Resolve) -> Outcome {
    decide_within(job, resolve, MAX_MARKS)
}

/// The same with space for so many marks.
pub fn decide_within(job: &Job, resolve: Resolve, space: usize) -> Outcome {
    check(job)?;
    let Carried { sheet, mut regions, options, start } = carry_over(job);
    let Left { result, warnings, count } = run(&sheet, &display_cells(&sheet), &mut regions, &options, start, resolve);
    let events = observe::take();
    match result {
        Ok(text_layout) => {
            assert!(!text_layout, "the original asks for text layout outside the domain of document 01");
            let (mut marks, bars) = listed(&events, &regions);
            if marks.len() > space {
                return Err(Refusal { number: 9, place: 0, count, actual: marks.len() as u64 });
            }
            put_shapes(job, &mut marks, Ends::shape);
            Ok(Answer { count, marks, bars, deferred: warnings.deferred, simplified: warnings.simplified })
        }
        Err(RenderError::LimitExceeded { actual, .. }) => Err(Refusal { number: 7, place: 0, count, actual }),
        Err(RenderError::CoordinateOverflow) => Err(Refusal { number: 8, place: 0, count, actual: 0 }),
        Err(RenderError::Typography { reason }) => unreachable!("only the wrapper gives {reason}"),
    }
}

/// An outcome's bar: the one that its region keeps, if this was the last outcome ahead of it, or the one dropped right after it.
fn bar_of(index: usize, events: &[Event], kept: Option<(Rgb24, u32)>, brought: Option<usize>) -> Option<(Rgb24, u32)> {
    match (events[index], events.get(index + 1)) {
        (Event::Outcome { had_bar: false, .. }, _) if brought == Some(index) => kept,
        (Event::Outcome { had_bar: true, .. }, Some(Event::BarDropped { colour, ppm })) => Some((*colour, *ppm)),
        _ => None,
    }
}

fn mark(region: usize, rule: usize, layer: Option<Layer>, bar: Option<(Rgb24, u32)>) -> Mark {
    let (kind, colour, ppm) = match (layer, bar) {
        (Some(Layer::Fill(colour)), None) => (1, colour, 0),
        (Some(Layer::Imported), None) => (2, [0; 3], 0),
        (None, Some((colour, ppm))) => (3, colour, ppm),
        (Some(Layer::Imported), Some((colour, ppm))) => (4, colour, ppm),
        // The original has no such outcome; a damaged one may.
        _ => (0, [0; 3], 0),
    };
    Mark { region, rule, kind, colour, ppm, shape: None }
}

fn kept_bar(region: &Region) -> Option<(Rgb24, u32)> {
    let bar = region.conditional.bar.data_bar.as_ref()?;
    Some(([bar.color.red, bar.color.green, bar.color.blue], bar.width_ppm))
}

/// Marks in the order in which the original applied its outcomes; bars in the order of the regions.
fn listed(events: &[Event], regions: &[Region]) -> (Vec<Mark>, Vec<Bar>) {
    let region_of: HashMap<u64, usize> = regions.iter().enumerate().map(|(i, region)| (region.conditional.number, i)).collect();
    let mut brought: HashMap<u64, usize> = HashMap::new();
    for (index, event) in events.iter().enumerate() {
        if let Event::Outcome { paint, had_bar: false, .. } = event {
            brought.insert(*paint, index);
        }
    }
    let mut marks = Vec::new();
    let mut bars = Vec::new();
    for (index, event) in events.iter().enumerate() {
        let Event::Outcome { paint, rule, layer, .. } = *event else {
            continue;
        };
        let region = region_of[&paint];
        let kept = kept_bar(&regions[region]);
        let last_ahead = brought.get(&paint).copied();
        marks.push(mark(region, rule, layer, bar_of(index, events, kept, last_ahead)));
        if let (Some((_, ppm)), Some(at)) = (kept, last_ahead) {
            if at == index {
                bars.push(Bar { region, rule, ppm });
            }
        }
    }
    bars.sort_by_key(|bar| bar.region);
    (marks, bars)
}
