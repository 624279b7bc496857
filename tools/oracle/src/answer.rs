//! What a job comes to: an answer, or a refusal with its number and values.

use crate::job::Rgb24;

#[derive(Debug, Clone, Copy, PartialEq, Eq)]
pub struct Refusal {
    pub number: u32,
    pub place: u64,
    pub count: u64,
    pub actual: u64,
}

/// `colour` and `ppm` are 0 where the kind has none. `shape` is there for the marks of scales and bars alone.
#[derive(Debug, Clone, Copy, PartialEq, Eq)]
pub struct Mark {
    pub region: usize,
    pub rule: usize,
    pub kind: u32,
    pub colour: Rgb24,
    pub ppm: u32,
    pub shape: Option<u32>,
}

#[derive(Debug, Clone, Copy, PartialEq, Eq)]
pub struct Bar {
    pub region: usize,
    pub rule: usize,
    pub ppm: u32,
}

#[derive(Debug, Clone, PartialEq, Eq)]
pub struct Answer {
    pub count: u64,
    pub marks: Vec<Mark>,
    pub bars: Vec<Bar>,
    pub deferred: u64,
    pub simplified: u64,
}

pub type Outcome = Result<Answer, Refusal>;
