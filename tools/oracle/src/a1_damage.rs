//! Lines `typed` with one thing damaged: what they say of their operand is wrong.

use crate::read_fields::{decimal_u32, text};
use crate::write::hex;

/// What a line `typed tBYTES rROW,COL,ABS,NAME tTEXT` says.
struct Said<'a> {
    bytes: &'a str,
    row: u32,
    col: u32,
    absolute: u32,
    name: &'a str,
    text: Vec<u8>,
}

fn said(line: &str) -> Option<Said<'_>> {
    let ["typed", bytes, fields, written] = line.split(' ').collect::<Vec<_>>()[..] else {
        return None;
    };
    let [row, col, absolute, name] = fields.strip_prefix('r')?.split(',').collect::<Vec<_>>()[..] else {
        return None;
    };
    let number = |field: &str| decimal_u32(field.as_bytes());
    Some(Said { bytes, row: number(row)?, col: number(col)?, absolute: number(absolute)?, name, text: text(written.as_bytes())? })
}

/// Turns the case of the last letter, which is the column's.
fn turn_case(text: &mut [u8]) {
    if let Some(letter) = text.iter_mut().rev().find(|byte| byte.is_ascii_alphabetic()) {
        *letter ^= 32;
    }
}

/// Takes the first quote away, or puts one in front where there is none.
fn turn_quote(text: &mut Vec<u8>) {
    match text.iter().position(|&byte| byte == b'\'') {
        Some(at) => drop(text.remove(at)),
        None => text.insert(0, b'\''),
    }
}

/// A `typed` line with one thing damaged, in one of ten ways; nothing for another line.
pub fn damaged(line: &str, way: usize) -> Option<String> {
    if let Some(operand) = line.strip_prefix("typed ").and_then(|rest| rest.strip_suffix(" 14")) {
        let instead = ["r0,0,0,- t4131", "15", "r0,0,0,- 14"];
        return Some(format!("typed {operand} {}", instead[way % 3]));
    }
    let Said { bytes, mut row, mut col, mut absolute, mut name, mut text } = said(line)?;
    match way % 10 {
        0 => row ^= 1,
        1 => turn_case(&mut text),
        2 => absolute = (absolute + 1) % 4,
        3 => turn_quote(&mut text),
        4 => return Some(format!("typed {bytes} 14")),
        5 => col += 1,
        6 => name = if name == "-" { "t" } else { "-" },
        7 => drop(text.pop()),
        8 => text.push(b'0'),
        _ => return Some(format!("{line} 14")),
    }
    Some(format!("typed {bytes} r{row},{col},{absolute},{name} t{}", hex(&text)))
}

/// So many of the `typed` lines, evenly spread, each damaged in the next way.
pub fn damaged_copy(lines: &[&str], count: usize) -> Vec<String> {
    let typed: Vec<&str> = lines.iter().copied().filter(|line| damaged(line, 0).is_some()).collect();
    (0..count.min(typed.len())).filter_map(|number| damaged(typed[number * typed.len() / count], number)).collect()
}
