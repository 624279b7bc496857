//! A job as document 01 has it, with operands parsed. f64 are held as their 64 bits.

pub type Rgb24 = [u8; 3];

#[derive(Debug, Clone, PartialEq, Eq)]
pub struct Job {
    pub limit: u64,
    pub start: u64,
    pub name: Vec<u8>,
    pub cells: Vec<CellAt>,
    pub regions: Vec<(u32, u16)>,
    pub rules: Vec<Rule>,
}

#[derive(Debug, Clone, PartialEq, Eq)]
pub struct CellAt {
    pub row: u32,
    pub col: u16,
    pub wraps: u8,
    pub value: Value,
}

#[derive(Debug, Clone, PartialEq, Eq)]
pub enum Value {
    Number(u64),
    Date(u64),
    Text(Vec<u8>),
    Bool(bool),
    Error,
}

#[derive(Debug, Clone, PartialEq, Eq)]
pub enum Operand {
    Literal(u64),
    Unread,
    Reference(Reference),
}

/// `absolute`: 1 for the row plus 2 for the column.
#[derive(Debug, Clone, PartialEq, Eq)]
pub struct Reference {
    pub row: u32,
    pub col: u16,
    pub absolute: u8,
    pub name: Option<Vec<u8>>,
}

#[derive(Debug, Clone, Copy, PartialEq, Eq)]
pub struct Range {
    pub top: u32,
    pub left: u16,
    pub bottom: u32,
    pub right: u16,
}

#[derive(Debug, Clone, PartialEq, Eq)]
pub struct Rule {
    pub range: Range,
    pub priority: Option<u32>,
    pub stop: bool,
    pub imported: bool,
    pub kind: Kind,
}

/// `second` is there for the operators 0 (Between) and 1 (NotBetween) alone.
#[derive(Debug, Clone, PartialEq, Eq)]
pub enum Kind {
    CellIs { op: u8, first: Operand, second: Option<Operand>, fill: Rgb24 },
    Scale2 { min: Rgb24, max: Rgb24 },
    Scale3 { min: Rgb24, mid: Rgb24, max: Rgb24 },
    Bar { colour: Rgb24 },
    Rank { number: u32, bottom: bool, percent: bool, fill: Rgb24 },
    Mean { below: bool, fill: Rgb24 },
    Same { unique: bool, fill: Rgb24 },
    Expr { op: u8, left: Operand, right: Operand, fill: Rgb24 },
}

impl Kind {
    pub fn word(&self) -> &'static str {
        match self {
            Kind::CellIs { .. } => "cellis",
            Kind::Scale2 { .. } => "scale2",
            Kind::Scale3 { .. } => "scale3",
            Kind::Bar { .. } => "bar",
            Kind::Rank { .. } => "rank",
            Kind::Mean { .. } => "mean",
            Kind::Same { .. } => "same",
            Kind::Expr { .. } => "expr",
        }
    }
}

pub const MAX_TEXT: usize = 65_536;
pub const MAX_CELLS: usize = 1_024;
pub const MAX_REGIONS: usize = 1_024;
pub const MAX_RULES: usize = 64;
pub const MAX_MARKS: usize = 1_024;
pub const MAX_ROW: u32 = 1_048_575;
pub const MAX_COL: u16 = 16_383;

pub const HEAD_LINE: &[u8] = b"limit start cells regions rules name";
pub const CELLS_LINE: &[u8] = b"row col wraps value";
pub const REGIONS_LINE: &[u8] = b"row col";
pub const RULES_LINE: &[u8] = b"top left bottom right priority stop imported rule p1 p2 p3 p4";
