//! Damaged job texts: single bytes, whole lines, single fields.

use crate::rng::Rng;

const BYTES: &[u8] = b" \n-0123456789abcdefntdbeur,\r\t+ABF\0\xff.";

/// Fields at and past the ends of what their places take.
const FIELDS: [&str; 44] = [
    "-",
    "",
    "0",
    "1",
    "2",
    "3",
    "4",
    "5",
    "6",
    "7",
    "8",
    "00",
    "01",
    "-0",
    "+1",
    "-1",
    "255",
    "256",
    "16383",
    "16384",
    "65535",
    "65536",
    "1048575",
    "1048576",
    "4294967295",
    "4294967296",
    "18446744073709551615",
    "18446744073709551616",
    "u",
    "e",
    "b0",
    "b2",
    "t",
    "t5",
    "t5A",
    "n3ff0000000000000",
    "n7ff0000000000000",
    "n3FF0000000000000",
    "d3ff0000000000000",
    "r0,0,0,-",
    "r0,0,4,-",
    "r0,0,0,",
    "ff0000",
    "fF0000",
];

fn single_bytes(rng: &mut Rng, text: &mut Vec<u8>) {
    for _ in 0..rng.between(1, 3) {
        if text.is_empty() {
            return;
        }
        let at = rng.below(text.len() as u64) as usize;
        match rng.below(4) {
            0 => text[at] = *rng.pick(BYTES),
            1 => text.insert(at, *rng.pick(BYTES)),
            2 => drop(text.remove(at)),
            _ => text[at] ^= 1 << rng.below(8),
        }
    }
}

fn whole_lines(rng: &mut Rng, text: &[u8]) -> Vec<u8> {
    if text.is_empty() {
        return b"\n".to_vec();
    }
    let mut lines: Vec<Vec<u8>> = text.split_inclusive(|&byte| byte == b'\n').map(<[u8]>::to_vec).collect();
    let count = lines.len() as u64;
    let (a, b) = (rng.below(count) as usize, rng.below(count) as usize);
    match rng.below(5) {
        0 => drop(lines.remove(a)),
        1 => lines.insert(b, lines[a].clone()),
        2 => lines.swap(a, b),
        3 => lines.insert(a, b"\n".to_vec()),
        _ => lines.push(lines[a].clone()),
    }
    lines.concat()
}

fn ends(rng: &mut Rng, text: &mut Vec<u8>) {
    match rng.below(7) {
        0 => drop(text.pop()),
        1 => text.push(b'\n'),
        2 => text.truncate(rng.below(text.len() as u64 + 1) as usize),
        3 => text.push(*rng.pick(BYTES)),
        4 => text.insert(0, *rng.pick(BYTES)),
        5 => *text = String::from_utf8_lossy(text).replace('\n', "\r\n").into_bytes(),
        _ => text.clear(),
    }
}

/// Damages a good text at its bytes, lines or ends.
pub fn damage(rng: &mut Rng, text: &[u8]) -> Vec<u8> {
    let mut damaged = text.to_vec();
    match rng.below(8) {
        0..=3 => single_bytes(rng, &mut damaged),
        4..=6 => damaged = whole_lines(rng, text),
        _ => ends(rng, &mut damaged),
    }
    damaged
}

/// Puts another field in a field's place, adds one, or leaves one out.
pub fn damage_field(rng: &mut Rng, text: &[u8]) -> Vec<u8> {
    let mut lines: Vec<String> = String::from_utf8_lossy(text).lines().map(str::to_string).collect();
    let at = rng.below(lines.len() as u64) as usize;
    let mut fields: Vec<String> = lines[at].split(' ').map(str::to_string).collect();
    let which = rng.below(fields.len() as u64) as usize;
    match rng.below(8) {
        0 => drop(fields.remove(which)),
        1 => fields.insert(which, rng.pick(&FIELDS).to_string()),
        2 => fields[which] = fields[which].to_uppercase(),
        3 => fields[which].insert(0, '0'),
        _ => fields[which] = rng.pick(&FIELDS).to_string(),
    }
    lines[at] = fields.join(" ");
    let mut damaged = lines.join("\n").into_bytes();
    damaged.push(b'\n');
    damaged
}

/// Changes a count of the second line, up to numbers that are over (2).
pub fn damage_counts(rng: &mut Rng, text: &[u8]) -> Vec<u8> {
    let mut lines: Vec<String> = String::from_utf8_lossy(text).lines().map(str::to_string).collect();
    let mut fields: Vec<String> = lines[1].split(' ').map(str::to_string).collect();
    let which = rng.between(2, 4) as usize;
    let count = fields[which].parse::<u64>().unwrap_or(0);
    let next = [count + 1, count.saturating_sub(1), 64, 65, 1024, 1025, u64::MAX];
    fields[which] = rng.pick(&next).to_string();
    lines[1] = fields.join(" ");
    if rng.one_in(3) {
        lines.truncate(2);
    }
    let mut damaged = lines.join("\n").into_bytes();
    damaged.push(b'\n');
    damaged
}
