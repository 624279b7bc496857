//! Texts that differ and still share one code. The library's code of a text takes byte after byte, in lower case, by
//! code' = (code mod 2^55) * 257 + byte. So two texts of one length with the same last byte share it if the numbers that they are to the
//! base 257, but for that byte, differ by a multiple of 2^55.
//!
//! 257^m - 1 is a multiple of 2^8, of 2^9 for an even m, of 2^10 if 4 divides m. So the product of x^m - 1 over `FACTORS` is a multiple of
//! 2^60 at 257, and its coefficients are small enough to be added to bytes. A text adds each of its shifts 0 to 3 times.

/// The m of the factors x^m - 1.
const FACTORS: [usize; 7] = [1, 1, 1, 2, 2, 3, 4];
const SHIFTS: usize = 5;
/// How many texts there are: 0 to 3 times each shift.
const COUNT: usize = 1 << (2 * SHIFTS);

/// Times x^m - 1; coefficients from the highest power on.
fn times(polynomial: &[i32], m: usize) -> Vec<i32> {
    let mut product = vec![0; polynomial.len() + m];
    for (index, coefficient) in polynomial.iter().enumerate() {
        product[index] += coefficient;
        product[index + m] -= coefficient;
    }
    product
}

fn vanishing() -> Vec<i32> {
    FACTORS.iter().fold(vec![1], |product, &m| times(&product, m))
}

/// What a shift adds to each byte, or takes away: then it counts down from 3, so that no byte falls below the least.
fn added(times: i32, coefficient: i32) -> u8 {
    (coefficient * if coefficient < 0 { times - 3 } else { times }) as u8
}

/// Text `index` of 1,024. Its bytes are `[` to 127: neither capitals nor wildcards.
pub fn text(index: usize, length: usize) -> Vec<u8> {
    assert!(index < COUNT, "there is no text {index}");
    let coefficients = vanishing();
    let mut bytes = vec![b'['; coefficients.len() + SHIFTS - 1];
    for shift in 0..SHIFTS {
        let times = (index >> (2 * (SHIFTS - 1 - shift)) & 3) as i32;
        bytes[shift..].iter_mut().zip(&coefficients).for_each(|(byte, &coefficient)| *byte += added(times, coefficient));
    }
    let start = vec![b'a'; length - bytes.len() - 1];
    [start, bytes, vec![b'z']].concat()
}

#[cfg(test)]
mod tests {
    use super::*;
    use std::collections::HashSet;

    /// As the library has it.
    fn code(text: &[u8], start: u64) -> u64 {
        text.iter().fold(start, |code, byte| code % (1 << 55) * 257 + u64::from(byte.to_ascii_lowercase()))
    }

    #[test]
    fn texts_differ_and_share_one_code() {
        let texts: Vec<Vec<u8>> = (0..COUNT).map(|index| text(index, 23)).collect();
        for start in [0, 1] {
            assert!(texts.iter().all(|text| code(text, start) == code(&texts[0], start)));
        }
        assert!(texts.iter().all(|text| text.len() == 23 && text.iter().all(|byte| (b'['..=127).contains(byte))));
        assert_eq!(texts.iter().collect::<HashSet<_>>().len(), COUNT);
    }

    #[test]
    fn other_texts_do_not_share_it() {
        let mut other = text(7, 23);
        other[10] ^= 1;
        assert_ne!(code(&other, 0), code(&text(7, 23), 0));
    }
}
