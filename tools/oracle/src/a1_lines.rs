//! Arguments for references as they are typed: random ones, all short texts, and every column.

use crate::a1::{fields, forms, is_bare, quoted, read, writes};
use crate::a1_damage::damaged;
use crate::job::Reference;
use crate::rng::Rng;
use crate::write::hex;

const SHORT_BYTES: &[u8; 8] = b"A10$'!= ";
const COLUMNS: [&str; 15] = ["A", "Z", "AA", "AZ", "BA", "ZZ", "AAA", "XEZ", "XFA", "XFD", "XFE", "XGA", "YAA", "ZZZ", "AAAA"];
const ROWS: [&str; 13] = ["0", "1", "9", "10", "01", "00", "99999", "100000", "999999", "1048575", "1048576", "1048577", "1999999"];
/// Their remainders by 2^32 and by 2^64 are rows.
const LONG_ROWS: [&str; 2] = ["4294967297", "18446744073709551617"];
const NAMES: [&str; 10] = ["A1", "R1C1", "XFD1048576", "_a", "1a", "Class 4", "it's", "a!b", "Sheet1", "=A"];
const TRAPS: [&str; 26] = [
    "", "=", "'", "''", "!", "!A1", "Sheet1!", "'a", "'a!A1", "'a'A1", "a'!A1", "''!A1", "'''!A1", "_a!A1", "1a!A1", "= A1", "==A1",
    "$$A1", "A$$1", "A1$", "$A", "1", "A", "A1 1", "A1:B2", "R1C1",
];
/// Blanks, bytes next to them, and other bytes that some take for blanks.
const ENDS: &[u8; 18] = b"\t\n\x0b\x0c\r\t\n\x0b\x0c\r     \x08\x0e\xa0";

// ---- names

/// Over bytes that a name may have.
fn any_name(rng: &mut Rng, length: u64) -> Vec<u8> {
    let byte = |rng: &mut Rng| match rng.below(4) {
        0 => *rng.pick(b"'! =$_.<>"),
        1 => rng.between(128, 255) as u8,
        _ => rng.between(32, 126) as u8,
    };
    (0..length).map(|_| byte(rng)).collect()
}

fn bare_name(rng: &mut Rng, length: u64) -> Vec<u8> {
    let bytes = b"ABCXYZabcxyz019_";
    (0..length).map(|at| bytes[rng.below(if at == 0 { 12 } else { 16 }) as usize]).collect()
}

/// A length next to the longest one.
fn long(rng: &mut Rng) -> u64 {
    rng.between(253, 257)
}

fn name(rng: &mut Rng) -> Vec<u8> {
    let length = if rng.one_in(8) { long(rng) } else { rng.between(1, 9) };
    match rng.below(24) {
        0..=6 => bare_name(rng, length),
        7..=15 => any_name(rng, length),
        16..=18 => rng.pick(&NAMES).as_bytes().to_vec(),
        19 | 20 => vec![b'\''; length as usize],
        21 => vec![rng.below(256) as u8; length as usize],
        22 => Vec::new(),
        _ => {
            let mut name = any_name(rng, length);
            let at = rng.below(length) as usize;
            name[at] = *rng.pick(&[0, 9, 10, 31, 127]);
            name
        }
    }
}

/// Mostly as it has to be: bare where it may be, else in quotes. The rest has needless quotes, none, or a `'` that is not doubled.
fn typed_name(rng: &mut Rng, name: &[u8]) -> Vec<u8> {
    match rng.below(20) {
        0 => name.to_vec(),
        1 => [b"'", name, b"'"].concat(),
        2..=12 if is_bare(name) => name.to_vec(),
        _ => quoted(name),
    }
}

// ---- operands

fn column(rng: &mut Rng) -> String {
    let mut letters = if rng.one_in(6) {
        rng.pick(&COLUMNS).to_string()
    } else {
        (0..rng.between(1, 3)).map(|_| char::from(rng.between(65, 90) as u8)).collect()
    };
    if rng.one_in(2) {
        letters = letters.chars().map(|letter| if rng.one_in(2) { letter.to_ascii_lowercase() } else { letter }).collect();
    }
    letters
}

fn row(rng: &mut Rng) -> String {
    match rng.below(8) {
        0 if rng.one_in(4) => rng.pick(&LONG_ROWS).to_string(),
        0 => rng.pick(&ROWS).to_string(),
        1 | 2 => rng.between(1, 1_048_577).to_string(),
        _ => rng.between(1, 120).to_string(),
    }
}

fn dollar(rng: &mut Rng) -> &'static str {
    if rng.one_in(3) {
        "$"
    } else {
        ""
    }
}

fn cell(rng: &mut Rng) -> Vec<u8> {
    format!("{}{}{}{}", dollar(rng), column(rng), dollar(rng), row(rng)).into_bytes()
}

fn ends(rng: &mut Rng) -> Vec<u8> {
    (0..rng.below(3)).map(|_| *rng.pick(ENDS)).collect()
}

/// Mostly a reference, some with blanks and `=` around it, as the parts of a split have them.
fn reference(rng: &mut Rng) -> Vec<u8> {
    let mut typed = cell(rng);
    if !rng.one_in(3) {
        let name = name(rng);
        typed = [&typed_name(rng, &name), &b"!"[..], &typed].concat();
    }
    if rng.one_in(4) {
        let equals = *rng.pick(&["", "", "=", "=", "=", "=", "= ", "=="]);
        typed = [&ends(rng), equals.as_bytes(), &typed, &ends(rng)].concat();
    }
    typed
}

/// A byte changed, dropped or doubled.
fn damage(rng: &mut Rng, bytes: &mut Vec<u8>) {
    if bytes.is_empty() {
        return;
    }
    let at = rng.below(bytes.len() as u64) as usize;
    match rng.below(4) {
        0 => bytes[at] ^= 1 << rng.below(8),
        1 => bytes[at] = *rng.pick(b"A1'!$= 0\x00\x7f"),
        2 => drop(bytes.remove(at)),
        _ => bytes.insert(at, bytes[at]),
    }
}

fn operand(rng: &mut Rng) -> Vec<u8> {
    match rng.below(10) {
        0 => (0..rng.below(9)).map(|_| *rng.pick(b"A10$'!= zX_9")).collect(),
        1 => rng.pick(&TRAPS).as_bytes().to_vec(),
        2 | 3 => {
            let mut bytes = reference(rng);
            damage(rng, &mut bytes);
            bytes
        }
        _ => reference(rng),
    }
}

// ---- lines

/// Around what is needed, and now and then none, or as many as a line can ask for.
fn space(rng: &mut Rng, needed: usize) -> u64 {
    let needed = needed as u64;
    match rng.below(8) {
        0 => 0,
        1 => rng.below(300),
        2 if rng.one_in(64) => 65_535,
        3 | 4 => needed.saturating_sub(1),
        5 => needed + rng.between(1, 20),
        _ => needed,
    }
}

pub fn reads_line(rng: &mut Rng) -> String {
    let bytes = operand(rng);
    let needed = read(&bytes).and_then(|reference| reference.name).map_or(0, |name| name.len());
    format!("reads {} t{}", space(rng, needed), hex(&bytes))
}

fn any_row(rng: &mut Rng) -> u32 {
    match rng.below(4) {
        0 => *rng.pick(&[0, 8, 9, 98, 99, 999_998, 999_999, 1_048_574, 1_048_575, 1_048_576, u32::MAX - 1, u32::MAX]),
        1 => rng.next() as u32,
        _ => rng.below(1_048_576) as u32,
    }
}

fn any_col(rng: &mut Rng) -> u16 {
    match rng.below(4) {
        0 => *rng.pick(&[0, 25, 26, 51, 52, 701, 702, 703, 16_382, 16_383, 16_384, u16::MAX - 1, u16::MAX]),
        1 => rng.next() as u16,
        _ => rng.below(16_384) as u16,
    }
}

pub fn writes_line(rng: &mut Rng) -> String {
    let name = if rng.one_in(3) { None } else { Some(name(rng)) };
    let reference = Reference { row: any_row(rng), col: any_col(rng), absolute: rng.below(4) as u8, name };
    // `t` and two digits a byte.
    let needed = writes(usize::MAX, &reference).len() / 2;
    format!("writes {} {}", space(rng, needed), fields(&reference))
}

/// An operand and its forms, one in four damaged.
pub fn typed_line(rng: &mut Rng) -> String {
    let bytes = operand(rng);
    let line = format!("typed t{} {}", hex(&bytes), forms(&bytes));
    if rng.one_in(4) {
        return damaged(&line, rng.next() as usize).unwrap_or(line);
    }
    line
}

// ---- all of a kind

/// Every text of at most `longest` bytes over eight bytes.
pub fn every_reference(longest: u32, put: &mut dyn FnMut(&str)) {
    for length in 0..=longest {
        for number in 0..8u64.pow(length) {
            let bytes: Vec<u8> = (0..length).map(|at| SHORT_BYTES[(number >> (3 * at) & 7) as usize]).collect();
            put(&format!("typed t{} {}", hex(&bytes), forms(&bytes)));
        }
    }
}

/// The letters that come after these: the last one moves on, and behind Z it is A again and the one before it moves on.
fn count_up(letters: &mut Vec<u8>) {
    for letter in letters.iter_mut().rev() {
        if *letter != b'Z' {
            *letter += 1;
            return;
        }
        *letter = b'A';
    }
    letters.insert(0, b'A');
}

fn typed_cell(cell: &str, row: u64, col: u64) -> String {
    let text = hex(cell.as_bytes());
    format!("typed t{text} r{row},{col},0,- t{text}")
}

fn no_cell(cell: &str) -> String {
    format!("typed t{} 14", hex(cell.as_bytes()))
}

/// Every column in row 1, by counting up; the first and the last row of each length in column A; and what lies behind the ends. None of
/// this comes from a1.rs.
pub fn every_column(put: &mut dyn FnMut(&str)) {
    let mut letters = vec![b'A'];
    for col in 0..16_384 {
        put(&typed_cell(&format!("{}1", String::from_utf8_lossy(&letters)), 0, col));
        count_up(&mut letters);
    }
    put(&no_cell(&format!("{}1", String::from_utf8_lossy(&letters))));
    for row in [1, 9, 10, 99, 100, 999, 1_000, 9_999, 10_000, 99_999, 100_000, 999_999, 1_000_000, 1_048_575, 1_048_576] {
        put(&typed_cell(&format!("A{row}"), row - 1, 0));
    }
    for row in [0, 1_048_577, 9_999_999, 10_000_000] {
        put(&no_cell(&format!("A{row}")));
    }
}

/// References whose texts are nearly twice as long as their lines, more of them than are read at once.
pub fn longest_answers(put: &mut dyn FnMut(&str)) {
    for row in 1_048_000..1_048_576 {
        put(&format!("writes 525 {}", fields(&Reference { row, col: 16_383, absolute: 3, name: Some(vec![b'\''; 255]) })));
    }
}
