//! The rule lines of a job text (document 01, 'Job and report text').

use crate::job::{Kind, Operand, Range, Rule};
use crate::read_fields::{colour, decimal_u16, decimal_u32, decimal_u8, fields, flag, operand};

pub fn rule(line: &[u8]) -> Option<Rule> {
    let [top, left, bottom, right, priority, stop, imported, word, p1, p2, p3, p4] = fields::<12>(line)?;
    let range = Range { top: decimal_u32(top)?, left: decimal_u16(left)?, bottom: decimal_u32(bottom)?, right: decimal_u16(right)? };
    let priority = if priority == b"-" { None } else { Some(decimal_u32(priority)?) };
    let kind = kind(word, [p1, p2, p3, p4])?;
    Some(Rule { range, priority, stop: flag(stop)?, imported: flag(imported)?, kind })
}

fn kind(word: &[u8], [p1, p2, p3, p4]: [&[u8]; 4]) -> Option<Kind> {
    match word {
        b"cellis" => {
            let op = decimal_u8(p1, 7)?;
            Some(Kind::CellIs { op, first: operand(p2)?, second: second(op, p3)?, fill: colour(p4)? })
        }
        b"scale2" => {
            unused(&[p3, p4])?;
            Some(Kind::Scale2 { min: colour(p1)?, max: colour(p2)? })
        }
        b"scale3" => {
            unused(&[p4])?;
            Some(Kind::Scale3 { min: colour(p1)?, mid: colour(p2)?, max: colour(p3)? })
        }
        b"bar" => {
            unused(&[p2, p3, p4])?;
            Some(Kind::Bar { colour: colour(p1)? })
        }
        b"rank" => {
            let (bottom, percent) = (either(p2, b"top", b"bottom")?, either(p3, b"count", b"percent")?);
            Some(Kind::Rank { number: decimal_u32(p1)?, bottom, percent, fill: colour(p4)? })
        }
        b"mean" => {
            unused(&[p2, p3])?;
            Some(Kind::Mean { below: either(p1, b"above", b"below")?, fill: colour(p4)? })
        }
        b"same" => {
            unused(&[p2, p3])?;
            Some(Kind::Same { unique: either(p1, b"duplicate", b"unique")?, fill: colour(p4)? })
        }
        b"expr" => Some(Kind::Expr { op: decimal_u8(p1, 5)?, left: operand(p2)?, right: operand(p3)?, fill: colour(p4)? }),
        _ => None,
    }
}

/// A parameter that the rule does not use is `-`.
fn unused(parameters: &[&[u8]]) -> Option<()> {
    parameters.iter().all(|parameter| *parameter == b"-").then_some(())
}

/// The second operand, which Between and NotBetween alone use.
fn second(op: u8, field: &[u8]) -> Option<Option<Operand>> {
    if op <= 1 {
        operand(field).map(Some)
    } else {
        unused(&[field]).map(|()| None)
    }
}

/// False for the first word, true for the second.
fn either(field: &[u8], first: &[u8], second: &[u8]) -> Option<bool> {
    if field == first {
        Some(false)
    } else {
        (field == second).then_some(true)
    }
}

#[cfg(test)]
mod tests {
    use super::rule;
    use crate::write::rule_line;

    #[test]
    fn good_lines_come_back() {
        for line in [
            "0 0 2 0 - 0 0 bar 00ff00 - - -",
            "0 0 2 0 0 1 0 mean above - - ff0000",
            "4294967295 65535 0 0 4294967295 1 1 cellis 0 n3ff0000000000000 u 000000",
            "0 0 0 0 1 0 0 cellis 2 r1,2,3,t - 000000",
            "0 0 0 0 - 0 0 scale2 ff0000 0000ff - -",
            "0 0 0 0 - 0 0 scale3 ff0000 00ff00 0000ff -",
            "0 0 0 0 - 0 0 rank 4294967295 bottom percent ffffff",
            "0 0 0 0 - 0 0 same unique - - ffffff",
            "0 0 0 0 - 0 0 expr 5 r0,0,0,- r0,0,0,t5a ffffff",
        ] {
            assert_eq!(rule_line(&rule(line.as_bytes()).expect(line)), line);
        }
    }

    #[test]
    fn bad_lines() {
        for line in [
            "0 0 2 0 - 0 0 bar 00ff00 - - - ",
            "0 0 2 0 - 0 0 bar 00ff00 - -",
            "0 0 2 0 - 0 0 bar - - - -",
            "0 0 2 0 - 0 0 bar 00ff00 - - 00ff00",
            "0 0 2 0 - 2 0 bar 00ff00 - - -",
            "0 0 2 0 4294967296 0 0 bar 00ff00 - - -",
            "0 65536 2 0 - 0 0 bar 00ff00 - - -",
            "0 0 0 0 1 0 0 cellis 0 n3ff0000000000000 - 000000",
            "0 0 0 0 1 0 0 cellis 2 n3ff0000000000000 u 000000",
            "0 0 0 0 1 0 0 cellis 8 n3ff0000000000000 - 000000",
            "0 0 0 0 1 0 0 cellis 2 n3ff0000000000000 - -",
            "0 0 0 0 - 0 0 rank 4294967296 bottom percent ffffff",
            "0 0 0 0 - 0 0 rank 1 Bottom percent ffffff",
            "0 0 0 0 - 0 0 expr 6 u u ffffff",
            "0 0 0 0 - 0 0 Bar 00ff00 - - -",
            "",
        ] {
            assert!(rule(line.as_bytes()).is_none(), "{line}");
        }
    }
}
