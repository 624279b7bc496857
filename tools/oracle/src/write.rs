//! Writes a job as text (document 01, 'Job and report text').

use crate::job::{Job, Kind, Operand, Rgb24, Rule, Value, CELLS_LINE, HEAD_LINE, REGIONS_LINE, RULES_LINE};

pub fn hex(bytes: &[u8]) -> String {
    const DIGITS: &[u8; 16] = b"0123456789abcdef";
    let mut text = String::with_capacity(bytes.len() * 2);
    for byte in bytes {
        text.push(char::from(DIGITS[usize::from(byte >> 4)]));
        text.push(char::from(DIGITS[usize::from(byte & 15)]));
    }
    text
}

pub fn value_text(value: &Value) -> String {
    match value {
        Value::Number(bits) => format!("n{bits:016x}"),
        Value::Date(bits) => format!("d{bits:016x}"),
        Value::Text(bytes) => format!("t{}", hex(bytes)),
        Value::Bool(value) => format!("b{}", u8::from(*value)),
        Value::Error => "e".to_string(),
    }
}

pub fn operand_text(operand: &Operand) -> String {
    match operand {
        Operand::Literal(bits) => format!("n{bits:016x}"),
        Operand::Unread => "u".to_string(),
        Operand::Reference(reference) => {
            let name = reference.name.as_ref().map_or("-".to_string(), |name| format!("t{}", hex(name)));
            format!("r{},{},{},{name}", reference.row, reference.col, reference.absolute)
        }
    }
}

fn colour(rgb: &Rgb24) -> String {
    hex(rgb)
}

fn kind_text(kind: &Kind) -> String {
    match kind {
        Kind::CellIs { op, first, second, fill } => {
            let second = second.as_ref().map_or("-".to_string(), operand_text);
            format!("cellis {op} {} {second} {}", operand_text(first), colour(fill))
        }
        Kind::Scale2 { min, max } => format!("scale2 {} {} - -", colour(min), colour(max)),
        Kind::Scale3 { min, mid, max } => format!("scale3 {} {} {} -", colour(min), colour(mid), colour(max)),
        Kind::Bar { colour: bar } => format!("bar {} - - -", colour(bar)),
        Kind::Rank { number, bottom, percent, fill } => {
            let end = if *bottom { "bottom" } else { "top" };
            let unit = if *percent { "percent" } else { "count" };
            format!("rank {number} {end} {unit} {}", colour(fill))
        }
        Kind::Mean { below, fill } => format!("mean {} - - {}", if *below { "below" } else { "above" }, colour(fill)),
        Kind::Same { unique, fill } => format!("same {} - - {}", if *unique { "unique" } else { "duplicate" }, colour(fill)),
        Kind::Expr { op, left, right, fill } => {
            format!("expr {op} {} {} {}", operand_text(left), operand_text(right), colour(fill))
        }
    }
}

pub fn rule_line(rule: &Rule) -> String {
    let range = rule.range;
    let priority = rule.priority.map_or("-".to_string(), |priority| priority.to_string());
    format!(
        "{} {} {} {} {priority} {} {} {}",
        range.top,
        range.left,
        range.bottom,
        range.right,
        u8::from(rule.stop),
        u8::from(rule.imported),
        kind_text(&rule.kind)
    )
}

fn put(text: &mut Vec<u8>, line: &[u8]) {
    text.extend_from_slice(line);
    text.push(b'\n');
}

pub fn job_text(job: &Job) -> Vec<u8> {
    let mut text = Vec::new();
    let counts = (job.cells.len(), job.regions.len(), job.rules.len());
    put(&mut text, HEAD_LINE);
    let head = format!("{} {} {} {} {} t{}", job.limit, job.start, counts.0, counts.1, counts.2, hex(&job.name));
    put(&mut text, head.as_bytes());
    put(&mut text, CELLS_LINE);
    for cell in &job.cells {
        put(&mut text, format!("{} {} {} {}", cell.row, cell.col, cell.wraps, value_text(&cell.value)).as_bytes());
    }
    put(&mut text, REGIONS_LINE);
    for (row, col) in &job.regions {
        put(&mut text, format!("{row} {col}").as_bytes());
    }
    put(&mut text, RULES_LINE);
    for rule in &job.rules {
        put(&mut text, rule_line(rule).as_bytes());
    }
    text
}
