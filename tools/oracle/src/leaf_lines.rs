//! Arguments for the leaves: random ones, and all of them where that can be done.

use crate::a1_lines::{reads_line, typed_line, writes_line};
use crate::generate::numbers;
use crate::generate::sheets::{value, Flavour};
use crate::rng::Rng;
use crate::write::{hex, value_text};

pub const LEAVES: [&str; 13] =
    ["ratio", "normalized", "channel", "cellis", "expr", "midpoint", "split", "axis", "number", "key", "reads", "writes", "typed"];

const SPLIT_BYTES: &[u8; 7] = b"A1'=<> ";
const PPM: [u32; 8] = [0, 1, 499_999, 500_000, 500_001, 999_999, 1_000_000, u32::MAX];
const AXES: [u32; 11] = [0, 1, 2, 5, 16_382, 16_383, 16_384, 1_048_574, 1_048_575, 1_048_576, u32::MAX];

fn float(rng: &mut Rng) -> String {
    format!("n{:016x}", if rng.one_in(3) { numbers::special(rng) } else { numbers::any(rng) })
}

/// Two ends in order, and a value between them or next to them.
fn ordered(rng: &mut Rng) -> String {
    let mut three = [0; 3].map(|_| f64::from_bits(numbers::finite(rng, numbers::any)));
    three.sort_by(f64::total_cmp);
    let [low, value, high] = three.map(|v| format!("n{:016x}", v.to_bits()));
    format!("{value} {low} {high}")
}

/// An end from 2^1022 up to the infinity: the difference of two such ends of either sign is finite or not.
fn far(rng: &mut Rng, sign: u64) -> String {
    format!("n{:016x}", (0x7fd0_0000_0000_0000 + rng.below(0x0020_0000_0000_0001)) | sign)
}

/// A value and two ends: in order, equal, far apart, or any.
fn ends(rng: &mut Rng) -> String {
    match rng.below(4) {
        0 => ordered(rng),
        1 => {
            let (value, end) = (float(rng), float(rng));
            format!("{value} {end} {end}")
        }
        2 => format!("{} {} {}", float(rng), far(rng, 1 << 63), far(rng, 0)),
        _ => format!("{} {} {}", float(rng), float(rng), float(rng)),
    }
}

fn ppm(rng: &mut Rng) -> u32 {
    match rng.below(3) {
        0 => *rng.pick(&PPM),
        1 => rng.below(1_000_001) as u32,
        _ => rng.next() as u32,
    }
}

fn axis(rng: &mut Rng) -> u32 {
    match rng.below(3) {
        0 => *rng.pick(&AXES),
        1 => rng.below(1_048_577) as u32,
        _ => rng.next() as u32,
    }
}

/// Finite values in the order in which the original sorts them.
fn sorted(rng: &mut Rng) -> String {
    let mut values: Vec<f64> = (0..rng.between(1, 9)).map(|_| f64::from_bits(numbers::finite(rng, numbers::any))).collect();
    values.sort_by(f64::total_cmp);
    values.iter().map(|v| format!(" n{:016x}", v.to_bits())).collect()
}

/// ASCII without letters that spell a number that is not finite.
fn formula(rng: &mut Rng) -> Vec<u8> {
    let bytes = b"A1'=<> '=<>!\"$B9.\t\x0b\r\nz";
    (0..rng.below(20)).map(|_| *rng.pick(bytes)).collect()
}

fn wrapped(rng: &mut Rng) -> String {
    let flavour = *rng.pick(&[Flavour::Mixed, Flavour::Keys, Flavour::Special]);
    let wraps = *rng.pick(&[0, 0, 1, 63, 64, 65, 255]);
    format!("{wraps} {}", value_text(&value(rng, flavour)))
}

/// A random line of one leaf.
pub fn line(rng: &mut Rng, leaf: &str) -> String {
    match leaf {
        "ratio" if rng.one_in(2) => format!("ratio {}", ordered(rng)),
        "ratio" => format!("ratio {} {} {}", float(rng), float(rng), float(rng)),
        "normalized" => format!("normalized {}", ends(rng)),
        "channel" => format!("channel {} {} {}", rng.below(256), rng.below(256), ppm(rng)),
        "cellis" => {
            let op = rng.below(8);
            let second = if op <= 1 { float(rng) } else { "-".to_string() };
            format!("cellis {op} {} {} {second}", float(rng), float(rng))
        }
        "expr" => format!("expr {} {} {}", rng.below(6), float(rng), float(rng)),
        "midpoint" => format!("midpoint{}", sorted(rng)),
        "split" => format!("split t{}", hex(&formula(rng))),
        "axis" => {
            let (target, origin, maximum) = (axis(rng), axis(rng), *rng.pick(&[16_383, 1_048_575]));
            // Half of them next to the ends of the axis.
            let near = origin.wrapping_sub(target).wrapping_add(*rng.pick(&[0, maximum])).wrapping_add(rng.below(5) as u32).wrapping_sub(2);
            let reference = if rng.one_in(2) { near } else { axis(rng) };
            format!("axis {target} {reference} {origin} {maximum}")
        }
        "number" => format!("number {}", wrapped(rng)),
        "reads" => reads_line(rng),
        "writes" => writes_line(rng),
        "typed" => typed_line(rng),
        _ => format!("key {} {}", wrapped(rng), wrapped(rng)),
    }
}

/// Every text of at most `longest` bytes over seven bytes.
pub fn every_split(longest: u32, put: &mut dyn FnMut(&str)) {
    for length in 0..=longest {
        for number in 0..7u64.pow(length) {
            let bytes: Vec<u8> = (0..length).map(|at| SPLIT_BYTES[(number / 7u64.pow(at) % 7) as usize]).collect();
            put(&format!("split t{}", hex(&bytes)));
        }
    }
}

/// Every pair of ends at the eight ratios.
pub fn every_channel(put: &mut dyn FnMut(&str)) {
    for ppm in PPM {
        for ends in 0..65_536u32 {
            put(&format!("channel {} {} {ppm}", ends / 256, ends % 256));
        }
    }
}
