//! The seeded generator of job texts. A job is made from its seed and number alone.

mod classes;
mod damage;
mod large;
pub mod limits;
pub mod numbers;
pub mod rules;
pub mod sheets;

use crate::rng::Rng;
use crate::write::job_text;

/// The classes and how often each is taken, in parts of their sum.
pub const CLASSES: [(&str, u64); 27] = [
    ("plain", 120),
    ("cellis", 45),
    ("scale2", 40),
    ("scale3", 50),
    ("bar", 45),
    ("rank", 50),
    ("mean", 45),
    ("same", 60),
    ("expr", 55),
    ("overlap", 80),
    ("specials", 60),
    ("wraps", 30),
    ("references", 50),
    ("names", 35),
    ("bytes", 20),
    ("limits", 70),
    ("counters", 45),
    ("marks", 10),
    ("largest", 3),
    ("offgrid", 20),
    ("order", 20),
    ("counts", 15),
    ("long", 2),
    ("damaged", 60),
    ("fields", 50),
    ("lines", 10),
    ("largedamaged", 2),
];

pub struct Made {
    pub class: usize,
    pub text: Vec<u8>,
}

pub fn class_named(name: &str) -> Option<usize> {
    CLASSES.iter().position(|class| class.0 == name)
}

fn choose(rng: &mut Rng) -> usize {
    let sum = CLASSES.iter().map(|class| class.1).sum();
    let mut left = rng.below(sum);
    for (index, class) in CLASSES.iter().enumerate() {
        if left < class.1 {
            return index;
        }
        left -= class.1;
    }
    0
}

/// A job text of one class.
pub fn make_class(rng: &mut Rng, class: usize) -> Vec<u8> {
    let kind = class.wrapping_sub(1);
    if classes::kinds().contains(&kind) {
        return job_text(&classes::of_kind(rng, kind));
    }
    let job = match CLASSES[class].0 {
        "overlap" => classes::overlap(rng),
        "specials" => classes::specials(rng),
        "wraps" => classes::wraps(rng),
        "references" => classes::references(rng),
        "names" => classes::names(rng, false),
        "bytes" => classes::names(rng, true),
        "limits" => classes::around_limit(rng),
        "counters" => classes::near_overflow(rng),
        "marks" => large::many_marks(rng),
        "largest" | "largedamaged" => large::largest(rng),
        "offgrid" => classes::off_grid(rng),
        "order" => classes::out_of_order(rng),
        "long" => return large::long_text(rng),
        _ => classes::plain(rng),
    };
    let text = job_text(&job);
    match CLASSES[class].0 {
        "damaged" | "largedamaged" => damage::damage(rng, &text),
        "fields" => damage::damage_field(rng, &text),
        "lines" => {
            let once = damage::damage(rng, &text);
            damage::damage(rng, &once)
        }
        "counts" => damage::damage_counts(rng, &text),
        _ => text,
    }
}

/// Job number `number` of a seed.
pub fn make(seed: u64, number: u64) -> Made {
    let mut rng = Rng::new(seed, number);
    let class = choose(&mut rng);
    Made { class, text: make_class(&mut rng, class) }
}

/// Job number `number` of a seed, of one class.
pub fn make_in(seed: u64, number: u64, class: usize) -> Made {
    let mut rng = Rng::new(seed, number);
    Made { class, text: make_class(&mut rng, class) }
}
