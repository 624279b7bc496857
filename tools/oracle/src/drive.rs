//! Compares a call from text to text with what is expected of it on generated jobs.

use std::time::{Duration, Instant};

use crate::generate::{make, Made, CLASSES};
use crate::guarded::{call, Fault, TextCall};
use crate::rng::Rng;
use crate::shrink::shrink;

/// No report and no job text that is read is longer.
pub const SPACE: usize = 65_536;

pub struct Mismatch {
    pub space: usize,
    pub expected: Vec<u8>,
    pub got: Result<Vec<u8>, Fault>,
}

/// What is due on a job text: `first` where it fits in the lent bytes, else `second` where that fits, else nothing.
pub struct Due {
    pub first: Vec<u8>,
    pub second: Vec<u8>,
}

impl Due {
    /// A report that does not fit leaves nothing.
    pub fn report(report: Vec<u8>) -> Self {
        Due { first: report, second: Vec::new() }
    }

    pub fn within(&self, space: usize) -> &[u8] {
        [&self.first, &self.second].into_iter().find(|text| text.len() <= space).map_or(&[], |text| text)
    }

    /// Ample space; and, if all are asked for, exactly enough for each of the two, one byte less, one more, none, and some.
    fn spaces(&self, rng: &mut Rng, all: bool) -> Vec<usize> {
        let (first, second) = (self.first.len(), self.second.len());
        let some = rng.below(first as u64) as usize;
        let mut spaces = vec![SPACE];
        if all {
            spaces.extend([first, first - 1, first + 1, 0, some]);
        }
        if all && second > 0 {
            spaces.extend([second, second - 1]);
        }
        spaces
    }
}

fn compare_in(text_call: TextCall, text: &[u8], due: &Due, space: usize, rng: &mut Rng) -> Option<Mismatch> {
    let got = call(text_call, text, space, rng);
    let expected = due.within(space).to_vec();
    (got.as_deref() != Ok(&expected)).then_some(Mismatch { space, expected, got })
}

/// Compares with ample space, or with all spaces.
pub fn compare(text_call: TextCall, text: &[u8], due: &Due, rng: &mut Rng, all_spaces: bool) -> Option<Mismatch> {
    due.spaces(rng, all_spaces).into_iter().find_map(|space| compare_in(text_call, text, due, space, rng))
}

/// Gives what is due on a job text of a class, and may count it.
pub type Expect<'a> = &'a mut dyn FnMut(usize, &[u8]) -> Due;

/// Job texts `from` to `to` of a seed.
pub struct Run {
    pub seed: u64,
    pub from: u64,
    pub to: u64,
}

pub struct Found {
    pub number: u64,
    pub class: &'static str,
    pub text: Vec<u8>,
    pub smallest: Vec<u8>,
    pub mismatch: Mismatch,
}

impl Run {
    /// The first mismatch, with the smallest job found that shows one; progress goes to `progress`.
    pub fn first_mismatch(&self, text_call: TextCall, expect: Expect, progress: &mut dyn FnMut(u64)) -> Option<Box<Found>> {
        for number in self.from..self.to {
            let made = make(self.seed, number);
            let due = expect(made.class, &made.text);
            let mut rng = Rng::new(!self.seed, number);
            let all_spaces = number % 8 == 0;
            if compare(text_call, &made.text, &due, &mut rng, all_spaces).is_some() {
                return Some(Box::new(self.shrunk(text_call, expect, number, made)));
            }
            progress(number - self.from + 1);
        }
        None
    }

    fn shrunk(&self, text_call: TextCall, expect: Expect, number: u64, made: Made) -> Found {
        let Made { class, text } = made;
        let mut rng = Rng::new(!self.seed, number);
        let mut differs = |text: &[u8]| compare(text_call, text, &expect(class, text), &mut rng, true);
        let smallest = shrink(&text, 20_000, &mut |text| differs(text).is_some());
        let mismatch = differs(&smallest).or_else(|| differs(&text)).expect("a mismatch that was seen does not come again");
        Found { number, class: CLASSES[class].0, text, smallest, mismatch }
    }
}

/// Writes a line to standard error every few seconds.
pub struct Progress {
    started: Instant,
    last: Instant,
    total: u64,
}

impl Progress {
    pub fn new(total: u64) -> Self {
        Progress { started: Instant::now(), last: Instant::now(), total }
    }

    pub fn at(&mut self, done: u64) {
        if self.last.elapsed() >= Duration::from_secs(5) || done == self.total {
            self.last = Instant::now();
            eprintln!("{done} of {} compared, no mismatch, {} s", self.total, self.started.elapsed().as_secs());
        }
    }

    pub fn seconds(&self) -> f64 {
        self.started.elapsed().as_secs_f64()
    }
}

fn shown(bytes: &[u8]) -> String {
    String::from_utf8_lossy(bytes).into_owned()
}

impl Found {
    pub fn message(&self, seed: u64) -> String {
        let mismatch = &self.mismatch;
        let got = mismatch.got.as_ref().map_or_else(|fault| format!("({fault})\n"), |report| shown(report));
        format!(
            "mismatch: seed {seed}, job {}, class {}, {} bytes lent\n\
            smallest job found ({} bytes, of {}):\n{}expected:\n{}got:\n{got}",
            self.number,
            self.class,
            mismatch.space,
            self.smallest.len(),
            self.text.len(),
            shown(&self.smallest),
            shown(&mismatch.expected),
        )
    }
}
