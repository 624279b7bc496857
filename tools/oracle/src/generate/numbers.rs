//! Numbers for cells and operands.

use crate::rng::Rng;

pub const LARGEST: u64 = 0x7fef_ffff_ffff_ffff;
const SIGN: u64 = 1 << 63;

/// Zeros, subnormal numbers and their ends, ends of the normal range, infinities, NaNs with several payloads, numbers whose halves or
/// sums round, and numbers around which the ratio rounds.
const SPECIAL: [u64; 34] = [
    0x0000_0000_0000_0000,
    SIGN,
    0x0000_0000_0000_0001,
    SIGN | 1,
    0x0000_0000_0000_0002,
    0x0000_0000_0000_0003,
    SIGN | 3,
    0x000f_ffff_ffff_ffff,
    0x0010_0000_0000_0000,
    0x0010_0000_0000_0001,
    0x3fdf_ffff_ffff_ffff,
    0x3fe0_0000_0000_0000,
    0x3ff0_0000_0000_0000,
    0x3ff0_0000_0000_0001,
    0x3fef_ffff_ffff_ffff,
    0xbff0_0000_0000_0000,
    0x3fb9_9999_9999_999a,
    0x3fc9_9999_9999_999a,
    0x3fd3_3333_3333_3333,
    0x3fd3_3333_3333_3334,
    0x4044_8000_0000_0000,
    0x4084_0000_0000_0000,
    0x4330_0000_0000_0000,
    0x4340_0000_0000_0000,
    0x4340_0000_0000_0001,
    0x7fdf_ffff_ffff_ffff,
    LARGEST,
    SIGN | LARGEST,
    0x7ff0_0000_0000_0000,
    0xfff0_0000_0000_0000,
    0x7ff8_0000_0000_0000,
    0x7ff0_0000_0000_0001,
    0xfff8_0000_dead_beef,
    0x7fff_ffff_ffff_ffff,
];

pub const EXTREMES: [u64; 12] =
    [LARGEST, LARGEST, LARGEST - 1, SIGN | LARGEST, 0x7fdf_ffff_ffff_ffff, 0, SIGN, 1, 2, 3, SIGN | 3, SIGN | 1];

/// The largest number and its half, with both signs; and where the difference from the largest is first not finite, and just finite.
pub const WIDE: [u64; 7] = [
    LARGEST,
    SIGN | LARGEST,
    0x7fdf_ffff_ffff_ffff,
    SIGN | 0x7fdf_ffff_ffff_ffff,
    0,
    SIGN | 0x7c90_0000_0000_0000,
    SIGN | 0x7c8f_ffff_ffff_ffff,
];

pub fn small(rng: &mut Rng) -> u64 {
    let whole = rng.below(12) as f64 - 3.0;
    let part = *rng.pick(&[0.0, 0.0, 0.0, 0.5, 0.25, 0.1]);
    (whole + part).to_bits()
}

pub fn special(rng: &mut Rng) -> u64 {
    *rng.pick(&SPECIAL)
}

/// One of the specials moved by a few units in the last place.
fn near_special(rng: &mut Rng) -> u64 {
    special(rng).wrapping_add(rng.below(7)).wrapping_sub(3)
}

pub fn any(rng: &mut Rng) -> u64 {
    match rng.below(8) {
        0..=3 => small(rng),
        4 => special(rng),
        5 => near_special(rng),
        6 => (rng.below(2_000_001) as f64 / 1000.0 - 1000.0).to_bits(),
        _ => rng.next(),
    }
}

/// A number that is finite, as operands have to be.
pub fn finite(rng: &mut Rng, pick: fn(&mut Rng) -> u64) -> u64 {
    loop {
        let bits = pick(rng);
        if f64::from_bits(bits).is_finite() {
            return bits;
        }
    }
}
