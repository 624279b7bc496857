//! Jobs at the largest sizes: around 1,024 marks, 1,024 cells, regions and 64 rules, and texts around 65,536 bytes.

use crate::generate::rules::{any_rule, kind};
use crate::generate::sheets::{cells, Field, Flavour};
use crate::job::{CellAt, Job, Kind, Operand, Range, Rule, Value, MAX_TEXT};
use crate::rng::Rng;
use crate::write::job_text;

const ONE: u64 = 0x3ff0_0000_0000_0000;

fn always() -> Kind {
    Kind::Expr { op: 0, left: Operand::Literal(ONE), right: Operand::Literal(ONE), fill: [1, 2, 3] }
}

fn over_rows(top: u32, bottom: u32, kind: Kind) -> Rule {
    let range = Range { top, left: 0, bottom, right: 0 };
    Rule { range, priority: None, stop: false, imported: false, kind }
}

/// Marks around the space of 1,024: one rule over all regions several times, and one over the few that are missing.
pub fn many_marks(rng: &mut Rng) -> Job {
    let rows = *rng.pick(&[16, 64, 256, 341, 512, 1023, 1024]);
    let field = Field::new(rows, 1);
    let wanted = *rng.pick(&[1022, 1023, 1024, 1024, 1025, 1026, 2048, 4000]);
    let times = (wanted / rows).min(60);
    let rest = (wanted - times * rows).min(rows);
    let cells = cells(rng, field, 8, Flavour::Ties);
    let mut rules = Vec::new();
    for _ in 0..times {
        let chosen = if rng.one_in(4) { kind(rng, field, 3) } else { always() };
        rules.push(over_rows(0, rows - 1, chosen));
    }
    if rest > 0 {
        rules.push(over_rows(0, rest - 1, always()));
    }
    if rng.one_in(4) {
        let stopper = Rule { stop: true, priority: Some(0), ..over_rows(rows - 1, rows - 1, always()) };
        rules.push(stopper);
    }
    let regions = field.coordinates().collect();
    Job { limit: u64::MAX, start: 0, name: b"S".to_vec(), cells, regions, rules }
}

/// As many cells, regions and rules as are let in, or one less.
pub fn largest(rng: &mut Rng) -> Job {
    let field = Field::new(64, 16);
    let flavour = *rng.pick(&[Flavour::Plain, Flavour::Keys, Flavour::Ties, Flavour::Special, Flavour::Mixed]);
    let mut cells = cells(rng, field, 8, flavour);
    let mut regions: Vec<(u32, u16)> = field.coordinates().collect();
    let mut rules: Vec<Rule> = (0..64).map(|_| any_rule(rng, field)).collect();
    // Mostly narrow ranges, so that the marks have space.
    let narrow = !rng.one_in(4);
    for rule in &mut rules {
        if narrow {
            let top = rng.below(64) as u32;
            rule.range = Range { top, left: 0, bottom: top, right: rng.below(16) as u16 };
        }
    }
    cells.truncate(1024 - rng.below(2) as usize);
    regions.truncate(1024 - rng.below(2) as usize);
    rules.truncate(64 - rng.below(2) as usize);
    Job { limit: u64::MAX, start: 0, name: b"S".to_vec(), cells, regions, rules }
}

/// A text of exactly, or nearly, 65,536 bytes: a cell's text is as long as that takes.
pub fn long_text(rng: &mut Rng) -> Vec<u8> {
    let length = MAX_TEXT + *rng.pick(&[0, 1, 2]) - *rng.pick(&[0, 1]);
    let cell = |bytes: usize| CellAt { row: 0, col: 0, wraps: 0, value: Value::Text(vec![b'a'; bytes]) };
    let mut job = Job { limit: 9, start: 0, name: b"S".to_vec(), cells: vec![cell(0)], regions: vec![(0, 0)], rules: vec![] };
    job.rules.push(over_rows(0, 0, Kind::Same { unique: true, fill: [1, 2, 3] }));
    let short = job_text(&job).len();
    if (length - short) % 2 == 1 {
        job.limit = 99;
    }
    let short = job_text(&job).len();
    job.cells = vec![cell((length - short) / 2)];
    job_text(&job)
}
