//! The call over lent columns and the original, and which goals are reached.
//!
//! The call has lent columns that its marks just fill. A text is read once and the call then made so many times; the same without a call
//! is taken off.

use oracle::answer::Answer;
use oracle::bench_jobs::goals::{all, Goal};
use oracle::bench_jobs::wide::{wide, Wide, SIZES};
use oracle::clock::Clock;
use oracle::decide::decide_within;
use oracle::job::{Job, MAX_CELLS, MAX_REGIONS, MAX_RULES};
use oracle::layout::ORIGINAL;
use oracle::library::columns_bench;
use oracle::write::job_text;

use crate::goals::{print, Decided};
use crate::measure::{deciding_time, repeat, Times};

const POOL: usize = 32_768;
/// Microseconds that the calls behind one reading take together, and how many there are at most.
const TOGETHER: f64 = 200.0;
const MOST: u64 = 50;

/// The columns that a text is read into.
struct Read {
    rows: Vec<u32>,
    cols: Vec<u16>,
    kinds: Vec<u8>,
    wraps: Vec<u8>,
    nums: Vec<u64>,
    ats: Vec<u32>,
    lens: Vec<u32>,
    region_rows: Vec<u32>,
    region_cols: Vec<u16>,
    pool: Vec<u8>,
}

impl Read {
    fn new() -> Self {
        Read {
            rows: vec![1; MAX_CELLS],
            cols: vec![1; MAX_CELLS],
            kinds: vec![1; MAX_CELLS],
            wraps: vec![1; MAX_CELLS],
            nums: vec![1; MAX_CELLS],
            ats: vec![1; MAX_CELLS],
            lens: vec![1; MAX_CELLS],
            region_rows: vec![1; MAX_REGIONS],
            region_cols: vec![1; MAX_REGIONS],
            pool: vec![1; POOL],
        }
    }
}

/// The columns of marks (regions, rules, kinds, colours, ppms, shapes) and of bars (rules, ppms), and the scratch.
struct Lent {
    marks: [Vec<u32>; 6],
    bars: [Vec<u32>; 2],
    scratch: Vec<f64>,
}

impl Lent {
    /// Nothing in it is 0.
    fn new(marks: usize, job: &Job) -> Self {
        let column = |length| vec![u32::MAX; length];
        Lent {
            marks: std::array::from_fn(|_| column(marks)),
            bars: std::array::from_fn(|_| column(job.regions.len())),
            scratch: vec![1.0; job.cells.len()],
        }
    }

    /// What an answer has to leave. The shapes are those of shape.rs, all else is the original's.
    fn due(answer: &Answer, job: &Job) -> Self {
        let mut due = Lent::new(0, job);
        due.bars.iter_mut().for_each(|column| column.fill(0));
        due.scratch.fill(0.0);
        for mark in &answer.marks {
            let [red, green, blue] = mark.colour.map(u32::from);
            let colour = red << 16 | green << 8 | blue;
            let fields = [mark.region as u32, mark.rule as u32, mark.kind, colour, mark.ppm, mark.shape.unwrap_or(0)];
            due.marks.iter_mut().zip(fields).for_each(|(column, field)| column.push(field));
        }
        for bar in &answer.bars {
            due.bars[0][bar.region] = bar.rule as u32 + 1;
            due.bars[1][bar.region] = bar.ppm;
        }
        due
    }

    fn same(&self, other: &Lent) -> bool {
        self.marks == other.marks && self.bars == other.bars && self.scratch == other.scratch
    }
}

/// Reads the text, then calls so many times: the count of the last answer.
fn calls(text: &[u8], repeats: u64, widened: bool, read: &mut Read, lent: &mut Lent) -> u64 {
    let Read { rows, cols, kinds, wraps, nums, ats, lens, region_rows, region_cols, pool } = read;
    let Lent { marks: [regions, rules, markkinds, colours, ppms, shapes], bars: [barrules, barppms], scratch } = lent;
    // Each pointer is to a slice of the length that the function is told.
    unsafe {
        columns_bench(
            text.as_ptr(),
            text.len(),
            repeats,
            widened,
            rows.as_mut_ptr(),
            rows.len(),
            cols.as_mut_ptr(),
            cols.len(),
            kinds.as_mut_ptr(),
            kinds.len(),
            wraps.as_mut_ptr(),
            wraps.len(),
            nums.as_mut_ptr(),
            nums.len(),
            ats.as_mut_ptr(),
            ats.len(),
            lens.as_mut_ptr(),
            lens.len(),
            region_rows.as_mut_ptr(),
            region_rows.len(),
            region_cols.as_mut_ptr(),
            region_cols.len(),
            pool.as_mut_ptr(),
            pool.len(),
            regions.as_mut_ptr(),
            regions.len(),
            rules.as_mut_ptr(),
            rules.len(),
            markkinds.as_mut_ptr(),
            markkinds.len(),
            colours.as_mut_ptr(),
            colours.len(),
            ppms.as_mut_ptr(),
            ppms.len(),
            shapes.as_mut_ptr(),
            shapes.len(),
            barrules.as_mut_ptr(),
            barrules.len(),
            barppms.as_mut_ptr(),
            barppms.len(),
            scratch.as_mut_ptr(),
            scratch.len(),
        )
    }
}

/// A job that is decided by both: the times of the reading alone, of the reading with the calls, and of the original.
struct Raced {
    goal: Goal,
    text: Vec<u8>,
    widened: bool,
    marks: usize,
    repeats: u64,
    read: Times,
    called: Times,
    original: Times,
}

impl Raced {
    /// Both have to leave the same marks, bars and count.
    fn new(clock: &Clock, goal: Goal, text: Vec<u8>, widened: bool) -> Result<Self, String> {
        let Goal { set, kind, job, .. } = &goal;
        let what = format!("{set}, {kind}, with {} cells and {} rules", job.cells.len(), job.rules.len());
        let answer = decide_within(job, ORIGINAL, MAX_REGIONS * MAX_RULES).map_err(|refusal| format!("{what}: {refusal:?}"))?;
        let marks = answer.marks.len();
        let (mut read, mut lent) = (Read::new(), Lent::new(marks, job));
        let count = calls(&text, 1, widened, &mut read, &mut lent);
        if count != answer.count || !lent.same(&Lent::due(&answer, job)) {
            return Err(format!("{what}: the two answers differ"));
        }
        let reading = clock.micros(|| calls(&text, 0, widened, &mut read, &mut lent));
        let once = (clock.micros(|| calls(&text, 1, widened, &mut read, &mut lent)) - reading).max(1.0);
        let repeats = ((TOGETHER / once) as u64).clamp(1, MOST);
        let [read, called, original] = std::array::from_fn(|_| Times::default());
        Ok(Raced { goal, text, widened, marks, repeats, read, called, original })
    }

    /// The original runs ahead of each reading, so that none finds the machine used to the one before. Over texts that are each the
    /// whole pool it takes seconds, and runs in the first pass alone.
    fn turn(&mut self, clock: &Clock, first: bool, read: &mut Read, lent: &mut Lent) {
        let original = first || !self.widened;
        for repeats in [0, self.repeats] {
            if original {
                self.original.add(deciding_time(clock, &self.goal.job));
            }
            let times = if repeats == 0 { &mut self.read } else { &mut self.called };
            times.add(clock.micros(|| calls(&self.text, repeats, self.widened, read, lent)));
        }
    }

    fn pass(&mut self, clock: &Clock, first: bool) {
        let (mut read, mut lent) = (Read::new(), Lent::new(self.marks, &self.goal.job));
        repeat(|| self.turn(clock, first, &mut read, &mut lent));
    }

    /// Of one call. A difference of two times; where it is less than a hundredth of them it cannot be told, and counts as that hundredth.
    fn deciding(&self) -> f64 {
        let called = self.called.decile();
        (called - self.read.decile()).max(called / 100.0) / self.repeats as f64
    }

    fn decided(&self) -> Decided<'_> {
        Decided { goal: &self.goal, ours: self.deciding(), original: self.original.decile() }
    }
}

fn wide_job(clock: &Clock, size: usize, rules: usize) -> Result<Raced, String> {
    let Wide { read, job } = wide(size, rules);
    let kind = "same, all texts the whole pool".to_string();
    Raced::new(clock, Goal { set: "hostile", kind, goal: None, job }, job_text(&read), true)
}

fn jobs(clock: &Clock) -> Result<Vec<Raced>, String> {
    let listed = all().into_iter().map(|goal| {
        let text = job_text(&goal.job);
        Raced::new(clock, goal, text, false)
    });
    listed.chain(SIZES.into_iter().map(|(size, rules)| wide_job(clock, size, rules))).collect()
}

/// Microseconds of processor time that one call in ten stays below, tab-separated.
pub fn table(passes: usize) -> Result<(), String> {
    let clock = Clock::new();
    let mut jobs = jobs(&clock)?;
    for pass in 1..=passes {
        eprintln!("pass {pass} of {passes}");
        jobs.iter_mut().for_each(|job| job.pass(&clock, pass == 1));
    }
    print("call", &jobs.iter().map(Raced::decided).collect::<Vec<_>>());
    Ok(())
}

/// The call so many times on the job of a set, for a profiler.
pub fn profile(set: &str, kind: &str, cells: u64, rules: u64, times: u64) -> Result<(), String> {
    let chosen =
        |goal: &Goal| goal.set == set && goal.kind == kind && goal.job.cells.len() as u64 == cells && goal.job.rules.len() as u64 == rules;
    let Goal { job, .. } = all().into_iter().find(chosen).ok_or("there is no such job")?;
    let answer = decide_within(&job, ORIGINAL, MAX_REGIONS * MAX_RULES).map_err(|refusal| format!("{refusal:?}"))?;
    let clock = Clock::new();
    let (mut read, mut lent) = (Read::new(), Lent::new(answer.marks.len(), &job));
    let micros = clock.micros(|| calls(&job_text(&job), times, false, &mut read, &mut lent));
    println!("{:.3} microseconds a call", micros / times as f64);
    Ok(())
}
