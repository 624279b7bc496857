//! Deciding by an earlier archive, by today's and by the original, on the same jobs.

use oracle::bench_jobs::places::{all, Placed};
use oracle::clock::Clock;
use oracle::library::wavendiru_whole_job_before;
use oracle::report::without_shapes;

use crate::measure::{deciding_time, lent_report, library, repeat, Call, Texts, Times};

fn library_before(text: &[u8], lent: &mut [u8]) -> usize {
    // Both pointers are to slices of the lengths that the call is told.
    unsafe { wavendiru_whole_job_before(text.as_ptr(), text.len(), lent.as_mut_ptr(), lent.len()) }
}

/// The marks of an earlier archive's report may be without shapes.
fn same_before(ours: &[u8], theirs: &[u8]) -> bool {
    ours == theirs || ours == without_shapes(theirs)
}

/// The times of one archive up to the end of the checks and up to the last charge.
struct Archive {
    call: Call,
    checked: Times,
    decided: Times,
}

impl Archive {
    fn new(call: Call) -> Self {
        Archive { call, checked: Times::default(), decided: Times::default() }
    }

    fn deciding(&self) -> f64 {
        self.decided.decile() - self.checked.decile()
    }
}

/// A job that is decided by three.
struct Compared {
    placed: Placed,
    texts: Texts,
    /// The earlier one and today's.
    archives: [Archive; 2],
    original: Times,
}

impl Compared {
    fn new(placed: Placed) -> Result<Self, String> {
        let Placed { kind, ranges, job } = &placed;
        let what = format!("{kind}, {ranges}, with {} cells and {} rules", job.cells.len(), job.rules.len());
        let texts = Texts::new(&what, job)?;
        texts.confirm_by(&format!("{what}, before"), library_before, same_before)?;
        texts.confirm(&format!("{what}, after"), library)?;
        let archives = [library_before, library].map(|call: Call| Archive::new(call));
        Ok(Compared { placed, texts, archives, original: Times::default() })
    }

    /// The archives take turns in each part. The original runs between every two of their calls, so that none of them finds the machine
    /// used to the one before.
    fn turn(&mut self, clock: &Clock, lent: &mut [u8]) {
        let Compared { placed, texts, archives, original } = self;
        for archive in archives.iter_mut() {
            archive.checked.add(clock.micros(|| (archive.call)(&texts.checked, lent)));
            original.add(deciding_time(clock, &placed.job));
        }
        for archive in archives.iter_mut() {
            archive.decided.add(clock.micros(|| (archive.call)(&texts.decided, lent)));
            original.add(deciding_time(clock, &placed.job));
        }
    }

    fn pass(&mut self, clock: &Clock) {
        let mut lent = lent_report();
        repeat(|| self.turn(clock, &mut lent));
    }

    /// Before, after, and the original's.
    fn times(&self) -> [f64; 3] {
        let [before, after] = self.archives.each_ref().map(Archive::deciding);
        [before, after, self.original.decile()]
    }

    fn line(&self) -> String {
        let Placed { kind, ranges, job } = &self.placed;
        let [before, after, original] = self.times();
        let shares = format!("{:.2}\t{:.2}", before / original, after / original);
        format!("{kind}\t{ranges}\t{}\t{}\t{before:.1}\t{after:.1}\t{original:.1}\t{shares}", job.cells.len(), job.rules.len())
    }

    fn is_one_rule_on(&self, cells: usize) -> bool {
        self.placed.job.rules.len() == 1 && self.placed.job.cells.len() == cells
    }
}

fn print_growth(jobs: &[Compared]) {
    println!("kind\tranges\tbefore, 256 to 1024 cells\tafter, 256 to 1024 cells\tRust, 256 to 1024 cells");
    let (fewer, more) = (jobs.iter().filter(|job| job.is_one_rule_on(256)), jobs.iter().filter(|job| job.is_one_rule_on(1024)));
    for (fewer, more) in fewer.zip(more) {
        let (Placed { kind, ranges, .. }, less) = (&fewer.placed, fewer.times());
        let [before, after, original] = [0, 1, 2].map(|side| more.times()[side] / less[side]);
        println!("{kind}\t{ranges}\t{before:.2}\t{after:.2}\t{original:.2}");
    }
}

/// Microseconds of processor time that one call in ten stays below, and how they grow with cells and regions (4 is linear); tab-separated.
pub fn tables(passes: usize) -> Result<(), String> {
    let mut jobs = all().into_iter().map(Compared::new).collect::<Result<Vec<_>, _>>()?;
    let clock = Clock::new();
    for pass in 1..=passes {
        eprintln!("pass {pass} of {passes}");
        jobs.iter_mut().for_each(|job| job.pass(&clock));
    }
    println!("kind\tranges\tcells\trules\tbefore\tafter\tRust\tbefore / Rust\tafter / Rust");
    jobs.iter().for_each(|job| println!("{}", job.line()));
    println!();
    print_growth(&jobs);
    Ok(())
}
