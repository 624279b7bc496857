//! Deciding by the library and by the original, and which goals are reached.

use oracle::bench_jobs::goals::{all, Goal};
use oracle::clock::Clock;

use crate::measure::{deciding_time, lent_report, library, repeat, Texts, Times};

/// A job that is decided by both: the library's times up to the end of the checks and up to the last charge, and the original's.
struct Raced {
    goal: Goal,
    texts: Texts,
    checked: Times,
    decided: Times,
    original: Times,
}

impl Raced {
    fn new(goal: Goal) -> Result<Self, String> {
        let Goal { set, kind, job, .. } = &goal;
        let what = format!("{set}, {kind}, with {} cells and {} rules", job.cells.len(), job.rules.len());
        let texts = Texts::deciding(&what, job)?;
        texts.confirm(&what, library)?;
        Ok(Raced { goal, texts, checked: Times::default(), decided: Times::default(), original: Times::default() })
    }

    /// The original runs between every two calls of the library, so that none of them finds the machine used to the one before.
    fn turn(&mut self, clock: &Clock, lent: &mut [u8]) {
        let Raced { goal, texts, checked, decided, original } = self;
        checked.add(clock.micros(|| library(&texts.checked, lent)));
        original.add(deciding_time(clock, &goal.job));
        decided.add(clock.micros(|| library(&texts.decided, lent)));
        original.add(deciding_time(clock, &goal.job));
    }

    fn pass(&mut self, clock: &Clock) {
        let mut lent = lent_report();
        repeat(|| self.turn(clock, &mut lent));
    }

    /// A difference of two times; where it is less than a hundredth of them it cannot be told, and counts as that hundredth.
    fn deciding(&self) -> f64 {
        let decided = self.decided.decile();
        (decided - self.checked.decile()).max(decided / 100.0)
    }

    fn decided(&self) -> Decided<'_> {
        Decided { goal: &self.goal, ours: self.deciding(), original: self.original.decile() }
    }
}

/// What both sides take for a job, in microseconds.
pub struct Decided<'a> {
    pub goal: &'a Goal,
    pub ours: f64,
    pub original: f64,
}

impl Decided<'_> {
    /// The original's time by ours, cut down to one decimal, so that a goal which is shown to be reached is.
    fn ratio(&self) -> f64 {
        (self.original / self.ours * 10.0).floor() / 10.0
    }

    fn reached(&self) -> Option<bool> {
        self.goal.goal.map(|goal| self.ratio() >= f64::from(goal))
    }

    fn line(&self) -> String {
        let Goal { set, kind, goal, job } = self.goal;
        let goal = goal.map_or("-".to_string(), |goal| goal.to_string());
        let reached = self.reached().map_or("-", |reached| if reached { "yes" } else { "no" });
        let times = format!("{:.1}\t{:.1}\t{:.1}", self.ours, self.original, self.ratio());
        format!("{set}\t{kind}\t{}\t{}\t{times}\t{goal}\t{reached}", job.cells.len(), job.rules.len())
    }
}

/// Tab-separated, with what of ours is timed in the heading; how many goals are reached goes to standard error.
pub fn print(timed: &str, jobs: &[Decided]) {
    println!("set\tkind\tcells\trules\t{timed} µs\tRust µs\tRust / ours\tgoal\treached");
    jobs.iter().for_each(|job| println!("{}", job.line()));
    let goals: Vec<bool> = jobs.iter().filter_map(Decided::reached).collect();
    eprintln!("{} of {} goals reached", goals.iter().filter(|&&reached| reached).count(), goals.len());
}

/// Microseconds of processor time that one call in ten stays below, tab-separated.
pub fn table(passes: usize) -> Result<(), String> {
    let mut jobs = all().into_iter().map(Raced::new).collect::<Result<Vec<_>, _>>()?;
    let clock = Clock::new();
    for pass in 1..=passes {
        eprintln!("pass {pass} of {passes}");
        jobs.iter_mut().for_each(|job| job.pass(&clock));
    }
    print("deciding", &jobs.iter().map(Raced::decided).collect::<Vec<_>>());
    Ok(())
}
