//! What the stand-ins see while the original runs: the rule that it has taken up, the outcomes that pass the stopped test of
//! `apply_conditional_paint`, and the bars that it drops since the region has one. Nothing here decides anything.

use std::cell::RefCell;

/// The style of an outcome: a fill of its own, or the imported one.
#[derive(Debug, Clone, Copy, PartialEq, Eq)]
pub enum Layer {
    Fill([u8; 3]),
    Imported,
}

#[derive(Debug, Clone, Copy, PartialEq, Eq)]
pub enum Event {
    /// An outcome passed the stopped test. `had_bar`: its region has a bar from before.
    Outcome { paint: u64, rule: usize, layer: Option<Layer>, had_bar: bool },
    /// A bar was dropped.
    BarDropped { colour: [u8; 3], ppm: u32 },
}

#[derive(Default)]
struct Log {
    rule: usize,
    paints: u64,
    events: Vec<Event>,
}

thread_local! {
    static LOG: RefCell<Log> = RefCell::new(Log::default());
    static ANY_REFERENCE: RefCell<bool> = const { RefCell::new(false) };
}

/// Forgets the events of an earlier run. Paints go on being numbered, so that no two have one number.
pub fn start() {
    LOG.with(|log| log.borrow_mut().events.clear());
}

pub fn take() -> Vec<Event> {
    LOG.with(|log| std::mem::take(&mut log.borrow_mut().events))
}

pub fn rule_taken_up(index: usize) {
    LOG.with(|log| log.borrow_mut().rule = index);
}

/// A number for each paint, so that an outcome can be told to belong to a region.
pub fn paint_number() -> u64 {
    LOG.with(|log| {
        let mut log = log.borrow_mut();
        log.paints += 1;
        log.paints
    })
}

pub fn outcome_passed(paint: u64, layer: Option<Layer>, had_bar: bool) {
    LOG.with(|log| {
        let mut log = log.borrow_mut();
        let rule = log.rule;
        log.events.push(Event::Outcome { paint, rule, layer, had_bar });
    });
}

pub fn bar_dropped(colour: [u8; 3], ppm: u32) {
    LOG.with(|log| log.borrow_mut().events.push(Event::BarDropped { colour, ppm }));
}

/// Runs `f` while `parse_a1_reference` takes every text as a reference and notes where it lies; for the probe of the split.
pub fn with_any_reference<T>(f: impl FnOnce() -> T) -> T {
    ANY_REFERENCE.with(|any| *any.borrow_mut() = true);
    let answer = f();
    ANY_REFERENCE.with(|any| *any.borrow_mut() = false);
    answer
}

pub fn any_reference() -> bool {
    ANY_REFERENCE.with(|any| *any.borrow())
}
