//! Carries a job over into the stand-ins: boxes for wraps, texts for operands.

use crate::job::{Job, Kind, Operand, Reference, Rgb24, Rule, Value};
use crate::layout::{CalcLinePlacementPolicy, CellCoordinate, ConditionalPaint, Limits, Region, RenderOptions};
use crate::read_fields::hex_bytes;
use crate::scene::{Fixed, Rect};
use crate::typography::CellLineLayoutPolicy;
use crate::write::hex;
use crate::{Cell, CellStyle, CfRule, Color, ConditionalFormat, ConditionalFormatMetadata, Formats, Sheet, DV_OPS};

/// The operators of `expr`, in the order of `ConditionalComparison`, as formulas have them.
const COMPARISONS: [&str; 6] = ["=", "<>", "<", "<=", ">", ">="];

/// Bytes as a string. The original's strings are UTF-8. If a name or text of the job is not, each byte of all of them becomes one
/// character of the same number, so that equal bytes stay equal and bytes above 127 stay outside ASCII.
#[derive(Clone, Copy)]
struct Strings {
    utf8: bool,
}

impl Strings {
    fn of(job: &Job) -> Self {
        let good = |bytes: &[u8]| std::str::from_utf8(bytes).is_ok();
        let cells = job.cells.iter().all(|cell| if let Value::Text(text) = &cell.value { good(text) } else { true });
        let rules = job.rules.iter().all(|rule| operands(rule).iter().all(|operand| operand_name(operand).is_none_or(good)));
        Strings { utf8: good(&job.name) && cells && rules }
    }

    fn string(self, bytes: &[u8]) -> String {
        if self.utf8 {
            String::from_utf8_lossy(bytes).into_owned()
        } else {
            bytes.iter().map(|&byte| char::from(byte)).collect()
        }
    }
}

fn operands(rule: &Rule) -> Vec<&Operand> {
    match &rule.kind {
        Kind::CellIs { first, second, .. } => std::iter::once(first).chain(second.as_ref()).collect(),
        Kind::Expr { left, right, .. } => vec![left, right],
        _ => Vec::new(),
    }
}

fn operand_name(operand: &Operand) -> Option<&[u8]> {
    match operand {
        Operand::Reference(reference) => reference.name.as_deref(),
        _ => None,
    }
}

/// The inverse of what `operand_text` writes for a name.
pub fn name_from_hex(digits: &str) -> Option<String> {
    String::from_utf8(hex_bytes(digits.as_bytes())?).ok()
}

/// The formula text of an operand. `{:e}` writes the shortest digits that read back to the same f64. `?` is no number and no reference.
fn operand_text(operand: &Operand, strings: Strings) -> String {
    match operand {
        Operand::Literal(bits) => format!("{:e}", f64::from_bits(*bits)),
        Operand::Unread => "?".to_string(),
        Operand::Reference(Reference { row, col, absolute, name }) => {
            let name = name.as_ref().map_or("-".to_string(), |name| format!("t{}", hex(strings.string(name).as_bytes())));
            format!("r{row},{col},{absolute},{name}")
        }
    }
}

/// A cell of the original by itself.
pub fn cell(value: &Value, wraps: u8) -> Cell {
    let utf8 = if let Value::Text(text) = value { std::str::from_utf8(text).is_ok() } else { true };
    cell_of(value, wraps, Strings { utf8 })
}

fn cell_of(value: &Value, wraps: u8, strings: Strings) -> Cell {
    let inner = match value {
        Value::Number(bits) => Cell::Number(f64::from_bits(*bits)),
        Value::Date(bits) => Cell::Date(f64::from_bits(*bits)),
        Value::Text(bytes) => Cell::Text(strings.string(bytes)),
        Value::Bool(value) => Cell::Bool(*value),
        Value::Error => Cell::Error(()),
    };
    (0..wraps).fold(inner, |cached, _| Cell::Formula { cached: Box::new(cached) })
}

fn color(rgb: Rgb24) -> Color {
    Color(rgb)
}

fn cf_rule(kind: &Kind, strings: Strings) -> CfRule {
    match kind {
        Kind::CellIs { op, first, second, fill } => CfRule::CellIs {
            op: DV_OPS[usize::from(*op)],
            formula1: operand_text(first, strings),
            formula2: second.as_ref().map(|second| operand_text(second, strings)),
            fill: color(*fill),
        },
        Kind::Scale2 { min, max } => CfRule::ColorScale2 { min: color(*min), max: color(*max) },
        Kind::Scale3 { min, mid, max } => CfRule::ColorScale3 { min: color(*min), mid: color(*mid), max: color(*max) },
        Kind::Bar { colour } => CfRule::DataBar { color: color(*colour) },
        Kind::Rank { number, bottom, percent, fill } => {
            CfRule::TopBottom { rank: *number, bottom: *bottom, percent: *percent, fill: color(*fill) }
        }
        Kind::Mean { below, fill } => CfRule::AboveAverage { below: *below, fill: color(*fill) },
        Kind::Same { unique, fill } => CfRule::DuplicateValues { unique: *unique, fill: color(*fill) },
        Kind::Expr { op, left, right, fill } => {
            let (left, right) = (operand_text(left, strings), operand_text(right, strings));
            CfRule::Expression { formula: format!("{left}{}{right}", COMPARISONS[usize::from(*op)]), fill: color(*fill) }
        }
    }
}

fn metadata(rule: &Rule) -> ConditionalFormatMetadata {
    ConditionalFormatMetadata {
        priority: rule.priority,
        stop_if_true: rule.stop,
        differential_style: rule.imported.then(CellStyle::imported),
        style_losses: Vec::new(),
    }
}

pub fn sheet(job: &Job) -> Sheet {
    let strings = Strings::of(job);
    let format = |rule: &Rule| ConditionalFormat {
        sqref: (rule.range.top, rule.range.left, rule.range.bottom, rule.range.right),
        rule: cf_rule(&rule.kind, strings),
    };
    Sheet {
        name: strings.string(&job.name),
        cells: job.cells.iter().map(|at| (at.row, at.col, cell_of(&at.value, at.wraps, strings))).collect(),
        formats: Formats(job.rules.iter().map(format).collect()),
        metadata: job.rules.iter().map(metadata).collect(),
    }
}

fn region(&(row, col): &(u32, u16)) -> Region {
    Region {
        source: CellCoordinate { row, col },
        rect: Rect { x: Fixed::ZERO, y: Fixed::ZERO, width: Fixed::ZERO, height: Fixed::ZERO },
        is_merged: false,
        line_layout_policy: CellLineLayoutPolicy::Native,
        line_placement_policy: CalcLinePlacementPolicy::Native,
        calc_wrap_space: None,
        style: None,
        conditional: ConditionalPaint::default(),
        text: String::new(),
        rich_text: None,
        hyperlink: None,
        numeric_default: false,
        text_can_overflow: false,
        fixed_height_row: false,
        ods_fixed_height_row: false,
        print_vertical_overflow: false,
        vertical_margin: (),
    }
}

pub fn regions(job: &Job) -> Vec<Region> {
    job.regions.iter().map(region).collect()
}

pub fn options(job: &Job) -> RenderOptions {
    RenderOptions { limits: Limits { max_conditional_evaluations: job.limit } }
}
