//! The fields of a job text's lines (document 01, 'Job and report text'). Each function gives nothing for a malformed field.

use crate::job::{Operand, Reference, Rgb24, Value};

/// A decimal without leading zeros that is at most `most`.
pub fn decimal(field: &[u8], most: u64) -> Option<u64> {
    if field.is_empty() || (field.len() > 1 && field[0] == b'0') {
        return None;
    }
    let mut value = 0u64;
    for &byte in field {
        if !byte.is_ascii_digit() {
            return None;
        }
        value = value.checked_mul(10)?.checked_add(u64::from(byte - b'0'))?;
    }
    (value <= most).then_some(value)
}

pub fn decimal_u32(field: &[u8]) -> Option<u32> {
    decimal(field, u64::from(u32::MAX)).map(|value| value as u32)
}

pub fn decimal_u16(field: &[u8]) -> Option<u16> {
    decimal(field, u64::from(u16::MAX)).map(|value| value as u16)
}

pub fn decimal_u8(field: &[u8], most: u8) -> Option<u8> {
    decimal(field, u64::from(most)).map(|value| value as u8)
}

pub fn flag(field: &[u8]) -> Option<bool> {
    decimal(field, 1).map(|value| value == 1)
}

fn hex_digit(byte: u8) -> Option<u8> {
    match byte {
        b'0'..=b'9' => Some(byte - b'0'),
        b'a'..=b'f' => Some(byte - b'a' + 10),
        _ => None,
    }
}

/// Two lower-case hex digits for each byte; none at all is an empty text.
pub fn hex_bytes(field: &[u8]) -> Option<Vec<u8>> {
    if field.len() % 2 != 0 {
        return None;
    }
    field.chunks_exact(2).map(|pair| Some(hex_digit(pair[0])? * 16 + hex_digit(pair[1])?)).collect()
}

/// The 16 hex digits of an f64.
pub fn hex_f64(field: &[u8]) -> Option<u64> {
    if field.len() != 16 {
        return None;
    }
    field.iter().try_fold(0u64, |bits, &byte| Some(bits * 16 + u64::from(hex_digit(byte)?)))
}

pub fn colour(field: &[u8]) -> Option<Rgb24> {
    hex_bytes(field)?.try_into().ok()
}

/// `t` and hex bytes.
pub fn text(field: &[u8]) -> Option<Vec<u8>> {
    hex_bytes(field.strip_prefix(b"t")?)
}

pub fn value(field: &[u8]) -> Option<Value> {
    match field {
        b"b0" => Some(Value::Bool(false)),
        b"b1" => Some(Value::Bool(true)),
        b"e" => Some(Value::Error),
        [b'n', digits @ ..] => hex_f64(digits).map(Value::Number),
        [b'd', digits @ ..] => hex_f64(digits).map(Value::Date),
        [b't', ..] => text(field).map(Value::Text),
        _ => None,
    }
}

/// An operand's literal has to be finite.
pub fn operand(field: &[u8]) -> Option<Operand> {
    match field {
        b"u" => Some(Operand::Unread),
        [b'n', digits @ ..] => {
            let bits = hex_f64(digits)?;
            f64::from_bits(bits).is_finite().then_some(Operand::Literal(bits))
        }
        [b'r', rest @ ..] => reference(rest).map(Operand::Reference),
        _ => None,
    }
}

/// `ROW,COL,ABS,NAME`.
fn reference(field: &[u8]) -> Option<Reference> {
    let parts: Vec<&[u8]> = field.split(|&byte| byte == b',').collect();
    let [row, col, absolute, name] = parts[..] else {
        return None;
    };
    let name = if name == b"-" { None } else { Some(text(name)?) };
    Some(Reference { row: decimal_u32(row)?, col: decimal_u16(col)?, absolute: decimal_u8(absolute, 3)?, name })
}

/// The fields of a line: one space between each two.
pub fn fields<const N: usize>(line: &[u8]) -> Option<[&[u8]; N]> {
    let parts: Vec<&[u8]> = line.split(|&byte| byte == b' ').collect();
    parts.try_into().ok()
}

#[cfg(test)]
mod tests {
    use super::*;

    #[test]
    fn decimals() {
        assert_eq!(decimal(b"0", u64::MAX), Some(0));
        assert_eq!(decimal(b"18446744073709551615", u64::MAX), Some(u64::MAX));
        for bad in [&b""[..], b"00", b"01", b"+1", b"-1", b"1 ", b"a", b"18446744073709551616", b"99999999999999999999999"] {
            assert_eq!(decimal(bad, u64::MAX), None);
        }
        assert_eq!(decimal_u32(b"4294967295"), Some(u32::MAX));
        assert_eq!(decimal_u32(b"4294967296"), None);
        assert_eq!(decimal_u16(b"65536"), None);
        assert_eq!(decimal_u8(b"255", 255), Some(255));
        assert_eq!((flag(b"1"), flag(b"2")), (Some(true), None));
    }

    #[test]
    fn values() {
        assert_eq!(value(b"n7ff0000000000000"), Some(Value::Number(0x7ff0_0000_0000_0000)));
        assert_eq!(value(b"d8000000000000000"), Some(Value::Date(1 << 63)));
        assert_eq!(value(b"t"), Some(Value::Text(vec![])));
        assert_eq!(value(b"t41ff"), Some(Value::Text(vec![0x41, 0xff])));
        assert_eq!((value(b"b1"), value(b"e")), (Some(Value::Bool(true)), Some(Value::Error)));
        for bad in [
            &b""[..],
            b"n",
            b"n3FF0000000000000",
            b"n3ff000000000000",
            b"n3ff00000000000000",
            b"t4",
            b"tA0",
            b"b2",
            b"b",
            b"e0",
            b"u",
            b"-",
        ] {
            assert_eq!(value(bad), None);
        }
    }

    #[test]
    fn operands() {
        assert_eq!(operand(b"n7ff0000000000000"), None);
        assert_eq!(operand(b"n7fefffffffffffff"), Some(Operand::Literal(0x7fef_ffff_ffff_ffff)));
        assert_eq!(operand(b"u"), Some(Operand::Unread));
        let named = Reference { row: u32::MAX, col: 65535, absolute: 3, name: Some(vec![0x53]) };
        assert_eq!(operand(b"r4294967295,65535,3,t53"), Some(Operand::Reference(named)));
        let empty = Reference { row: 0, col: 0, absolute: 0, name: Some(vec![]) };
        assert_eq!(operand(b"r0,0,0,t"), Some(Operand::Reference(empty)));
        for bad in [
            &b"-"[..],
            b"r0,0,4,-",
            b"r0,0,0",
            b"r0,0,0,-,-",
            b"r0,65536,0,-",
            b"r0,0,0,",
            b"r0,0,0,53",
            b"r00,0,0,-",
            b"d3ff0000000000000",
        ] {
            assert_eq!(operand(bad), None);
        }
    }

    #[test]
    fn colours_and_fields() {
        assert_eq!(colour(b"00ff80"), Some([0, 255, 128]));
        for bad in [&b"00ff8"[..], b"00ff800", b"00FF80", b"-", b""] {
            assert_eq!(colour(bad), None);
        }
        assert_eq!(fields::<2>(b"1 2"), Some([&b"1"[..], b"2"]));
        assert_eq!(fields::<2>(b"1  2"), None);
        assert_eq!(fields::<3>(b"1  2"), Some([&b"1"[..], b"", b"2"]));
    }
}
