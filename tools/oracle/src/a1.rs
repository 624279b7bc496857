//! References as they are typed: a reading of document 02, T-04, and of what the split drops (document 01). The original's own parser,
//! `parse_a1_reference`, is not shown.

use crate::job::{Operand, Reference, MAX_COL, MAX_ROW};
use crate::read_fields::decimal;
use crate::write::{hex, operand_text};

/// Without the bytes 9 to 13 and 32 at both ends, then without one `=`.
fn kept(bytes: &[u8]) -> &[u8] {
    let kept = |byte: &u8| !matches!(byte, 9..=13 | 32);
    let (Some(first), Some(last)) = (bytes.iter().position(kept), bytes.iter().rposition(kept)) else {
        return &[];
    };
    let bytes = &bytes[first..=last];
    bytes.strip_prefix(b"=").unwrap_or(bytes)
}

// ---- names

/// 1 to 255 bytes, none of them 0 to 31 or 127.
fn is_name(name: &[u8]) -> bool {
    (1..=255).contains(&name.len()) && !name.iter().any(u8::is_ascii_control)
}

/// A name that is typed without quotes.
pub fn is_bare(name: &[u8]) -> bool {
    name.first().is_some_and(u8::is_ascii_alphabetic) && name.iter().all(|&byte| byte.is_ascii_alphanumeric() || byte == b'_')
}

/// What stands between quotes: each `''` is one `'`, and there is no other `'`.
fn undone(quoted: &[u8]) -> Option<Vec<u8>> {
    let mut bytes = quoted.iter();
    let mut name = Vec::new();
    while let Some(&byte) = bytes.next() {
        if byte == b'\'' && bytes.next() != Some(&b'\'') {
            return None;
        }
        name.push(byte);
    }
    Some(name)
}

pub fn quoted(name: &[u8]) -> Vec<u8> {
    let mut typed = vec![b'\''];
    for &byte in name {
        typed.extend(std::iter::repeat_n(byte, if byte == b'\'' { 2 } else { 1 }));
    }
    typed.push(b'\'');
    typed
}

fn name(typed: &[u8]) -> Option<Vec<u8>> {
    let name = if is_bare(typed) { typed.to_vec() } else { undone(typed.strip_prefix(b"'")?.strip_suffix(b"'")?)? };
    is_name(&name).then_some(name)
}

// ---- cells

/// Without a `$` in front, and whether there was one.
fn absolute(typed: &[u8]) -> (bool, &[u8]) {
    typed.strip_prefix(b"$").map_or((false, typed), |rest| (true, rest))
}

/// From 0 for A on.
fn column(letters: &[u8]) -> Option<u16> {
    if !(1..=3).contains(&letters.len()) {
        return None;
    }
    let number = letters.iter().fold(0u16, |sum, letter| sum * 26 + u16::from(letter.to_ascii_uppercase() - b'A') + 1);
    (number <= MAX_COL + 1).then(|| number - 1)
}

fn letters(col: u16) -> Vec<u8> {
    let mut left = u32::from(col) + 1;
    let mut letters = Vec::new();
    while left > 0 {
        letters.push(b'A' + ((left - 1) % 26) as u8);
        left = (left - 1) / 26;
    }
    letters.reverse();
    letters
}

fn cell(typed: &[u8], name: Option<Vec<u8>>) -> Option<Reference> {
    let (col_absolute, typed) = absolute(typed);
    let (letters, typed) = typed.split_at(typed.iter().take_while(|byte| byte.is_ascii_alphabetic()).count());
    let (row_absolute, digits) = absolute(typed);
    let row = decimal(digits, u64::from(MAX_ROW) + 1)?.checked_sub(1)? as u32;
    Some(Reference { row, col: column(letters)?, absolute: u8::from(row_absolute) + 2 * u8::from(col_absolute), name })
}

// ---- references

/// The reference that an operand's bytes are, or none. No cell has a `!`, so the last one is behind the name.
pub fn read(bytes: &[u8]) -> Option<Reference> {
    let typed = kept(bytes);
    match typed.iter().rposition(|&byte| byte == b'!') {
        Some(mark) => cell(&typed[mark + 1..], Some(name(&typed[..mark])?)),
        None => cell(typed, None),
    }
}

/// The one text of a reference, or none if it is off the grid or its name is none.
pub fn written(reference: &Reference) -> Option<Vec<u8>> {
    let Reference { row, col, absolute, name } = reference;
    if *row > MAX_ROW || *col > MAX_COL || !name.as_deref().is_none_or(is_name) {
        return None;
    }
    let mut text = match name {
        Some(name) if is_bare(name) => [name, &b"!"[..]].concat(),
        Some(name) => [&quoted(name), &b"!"[..]].concat(),
        None => Vec::new(),
    };
    let dollar = |bit: u8| if absolute & bit != 0 { &b"$"[..] } else { b"" };
    text.extend_from_slice(&[dollar(2), &letters(*col), dollar(1), (row + 1).to_string().as_bytes()].concat());
    Some(text)
}

// ---- answers

/// `rROW,COL,ABS,NAME`.
pub fn fields(reference: &Reference) -> String {
    operand_text(&Operand::Reference(reference.clone()))
}

/// Reading into so many lent bytes.
pub fn reads(space: usize, bytes: &[u8]) -> String {
    match read(bytes) {
        None => "14".to_string(),
        Some(reference) if reference.name.as_ref().is_some_and(|name| name.len() > space) => "15".to_string(),
        Some(reference) => fields(&reference),
    }
}

/// Writing into so many lent bytes.
pub fn writes(space: usize, reference: &Reference) -> String {
    match written(reference) {
        None => "14".to_string(),
        Some(text) if text.len() > space => "15".to_string(),
        Some(text) => format!("t{}", hex(&text)),
    }
}

/// What an operand's bytes read as and what that is written as, in enough lent bytes; one 14 if they are no reference.
pub fn forms(bytes: &[u8]) -> String {
    match read(bytes) {
        None => "14".to_string(),
        Some(reference) => format!("{} {}", fields(&reference), writes(usize::MAX, &reference)),
    }
}
