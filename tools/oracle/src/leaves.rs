//! The leaves, one call a line: arguments in, the original's answer out; that of shape.rs for the shape beside a ratio, and of a1.rs for
//! references as they are typed. README.md has the lines.

use crate::a1;
use crate::carry::cell;
use crate::job::{Operand, Reference, Value};
use crate::layout::probed::probe;
use crate::read_fields::{decimal_u16, decimal_u32, decimal_u8, operand, text, value};
use crate::shape::shape;
use crate::{Cell, DV_OPS};

/// The f64 of a field `n` and 16 hex digits.
fn float(field: &str) -> Option<f64> {
    match value(field.as_bytes())? {
        Value::Number(bits) => Some(f64::from_bits(bits)),
        _ => None,
    }
}

fn ascii(field: &str) -> Option<String> {
    String::from_utf8(text(field.as_bytes())?).ok().filter(|text| text.is_ascii())
}

fn wrapped(wraps: &str, held: &str) -> Option<Cell> {
    Some(cell(&value(held.as_bytes())?, decimal_u8(wraps.as_bytes(), 255)?))
}

/// How many bytes are lent.
fn space(field: &str) -> Option<usize> {
    decimal_u16(field.as_bytes()).map(usize::from)
}

fn reference(field: &str) -> Option<Reference> {
    match operand(field.as_bytes())? {
        Operand::Reference(reference) => Some(reference),
        _ => None,
    }
}

fn flag(holds: bool) -> String {
    u8::from(holds).to_string()
}

fn or_none(answer: Option<String>) -> String {
    answer.unwrap_or("none".to_string())
}

/// The ppm of the original, and the shape.
fn normalized(value: f64, minimum: f64, maximum: f64) -> String {
    format!("{} {}", probe::ratio(value, minimum, maximum), shape(minimum, maximum))
}

/// The answer to a line; nothing for a line that is none of the leaves' lines.
pub fn answer(line: &str) -> Option<String> {
    let fields: Vec<&str> = line.split(' ').collect();
    let number = |field: &str| decimal_u32(field.as_bytes());
    let byte = |field: &str, most: u8| decimal_u8(field.as_bytes(), most);
    Some(match fields[..] {
        ["ratio", v, lo, hi] => probe::ratio(float(v)?, float(lo)?, float(hi)?).to_string(),
        ["normalized", v, lo, hi] => normalized(float(v)?, float(lo)?, float(hi)?),
        ["channel", start, end, ppm] => probe::channel(byte(start, 255)?, byte(end, 255)?, number(ppm)?).to_string(),
        ["cellis", op, v, first, second] => {
            let second = if second == "-" { None } else { Some(float(second)?) };
            flag(probe::cell_is(float(v)?, DV_OPS[usize::from(byte(op, 7)?)], float(first)?, second))
        }
        ["expr", op, left, right] => flag(probe::comparison(usize::from(byte(op, 5)?), float(left)?, float(right)?)),
        ["midpoint", ref values @ ..] if !values.is_empty() => {
            let values = values.iter().map(|field| float(field)).collect::<Option<Vec<f64>>>()?;
            format!("n{:016x}", probe::midpoint(&values).to_bits())
        }
        ["split", bytes] => or_none(probe::split(&ascii(bytes)?).map(|(at, width, op)| format!("{at} {width} {op}"))),
        ["axis", target, reference, origin, maximum] => {
            let axis = probe::axis(number(target)?, number(reference)?, number(origin)?, number(maximum)?);
            or_none(axis.map(|axis| axis.to_string()))
        }
        ["number", wraps, held] => or_none(probe::number(&wrapped(wraps, held)?).map(|v| format!("n{:016x}", v.to_bits()))),
        ["key", w1, v1, w2, v2] => or_none(probe::same_key(&wrapped(w1, v1)?, &wrapped(w2, v2)?).map(flag)),
        ["reads", lent, bytes] => a1::reads(space(lent)?, &text(bytes.as_bytes())?),
        ["writes", lent, typed] => a1::writes(space(lent)?, &reference(typed)?),
        ["typed", bytes, ref said @ ..] if !said.is_empty() => flag(a1::forms(&text(bytes.as_bytes())?) == said.join(" ")),
        _ => return None,
    })
}

#[cfg(test)]
mod tests {
    use super::answer;

    fn says(line: &str, expected: &str) {
        assert_eq!(answer(line).as_deref(), Some(expected), "{line}");
    }

    /// P1 to P5 of document 01.
    #[test]
    fn ratio_and_channel() {
        says("ratio n4000000000000000 n3ff0000000000000 n4008000000000000", "500000");
        says("ratio n4014000000000000 n4014000000000000 n4014000000000000", "1000000");
        says("ratio n4000000000000000 n0000000000000000 n4008000000000000", "666667");
        says("ratio n7fefffffffffffff nffefffffffffffff n7fefffffffffffff", "0");
        says("ratio n7ff8000000000000 n4014000000000000 n4014000000000000", "1000000");
        says("channel 255 0 500000", "128");
        says("channel 255 0 1", "255");
    }

    /// P1, P2 and P4 with their shapes; what is no number at either end is too wide, as a value it is plain.
    #[test]
    fn ratio_with_its_shape() {
        says("normalized n4000000000000000 n3ff0000000000000 n4008000000000000", "500000 0");
        says("normalized n4014000000000000 n4014000000000000 n4014000000000000", "1000000 1");
        says("normalized n7fefffffffffffff nffefffffffffffff n7fefffffffffffff", "0 2");
        says("normalized n7fefffffffffffff n7fefffffffffffff nffefffffffffffff", "1000000 1");
        says("normalized n4000000000000000 n7ff8000000000000 n4008000000000000", "0 2");
        says("normalized n4000000000000000 n3ff0000000000000 n7ff8000000000000", "0 2");
        says("normalized n7ff8000000000000 n3ff0000000000000 n4008000000000000", "0 0");
        says("normalized n7ff0000000000000 n3ff0000000000000 n4008000000000000", "1000000 0");
    }

    /// P8, P9 and the traps T6 and T8 of the readings.
    #[test]
    fn axis_split_midpoint() {
        says("axis 0 0 1 1048575", "none");
        says("axis 5 2 5 1048575", "2");
        says("split t41313c3d32", "2 2 3");
        says("split t2769742727733c272141313c33", "11 1 2");
        says("split t41313d3d32", "2 1 0");
        says("split t3d2041313c32", "3 1 2");
        says("split t3d3d32", "0 1 0");
        says("split t313d31", "1 1 0");
        says("split t", "none");
        says("midpoint n0000000000000001 n0000000000000001", "n0000000000000000");
        says("midpoint n0000000000000003 n0000000000000003", "n0000000000000004");
    }

    /// P7 and P11.
    #[test]
    fn readings() {
        says("number 64 n3ff0000000000000", "n3ff0000000000000");
        says("number 65 n3ff0000000000000", "none");
        says("number 0 n7ff0000000000000", "none");
        says("key 0 t4162 0 t6142", "1");
        says("key 0 n0000000000000000 0 n8000000000000000", "1");
        says("key 64 n3ff0000000000000 0 d3ff0000000000000", "1");
        says("key 0 n3ff0000000000000 0 t31", "0");
        says("key 0 n3ff0000000000000 0 t2a", "none");
        assert_eq!(answer("ratio 1 2 3"), None);
    }
}
