//! Stand-ins for the types of the crate rxls. Fields and methods are those that conditional.rs names; nothing else is known of them.

use std::cell::Cell as Slot;
use std::ops::Index;

use crate::observe::{self, Layer};

/// A cell's value. What `Error` and `Formula` hold besides is not visible in conditional.rs.
#[derive(Debug, Clone)]
pub enum Cell {
    Number(f64),
    Date(f64),
    Text(String),
    Bool(bool),
    Error(()),
    Formula { cached: Box<Cell> },
}

#[derive(Debug, Clone, Copy)]
pub struct DisplayCell<'a> {
    pub row: u32,
    pub col: u16,
    pub value: &'a Cell,
}

/// The order is that of the arms of `compare_conditional`: the declaration is not shown.
#[derive(Debug, Clone, Copy)]
pub enum DvOp {
    Between,
    NotBetween,
    Equal,
    NotEqual,
    GreaterThan,
    LessThan,
    GreaterThanOrEqual,
    LessThanOrEqual,
}

pub const DV_OPS: [DvOp; 8] = [
    DvOp::Between,
    DvOp::NotBetween,
    DvOp::Equal,
    DvOp::NotEqual,
    DvOp::GreaterThan,
    DvOp::LessThan,
    DvOp::GreaterThanOrEqual,
    DvOp::LessThanOrEqual,
];

#[derive(Debug, Clone, Copy, PartialEq, Eq)]
pub struct Color(pub [u8; 3]);

impl Color {
    pub fn rgb(red: u8, green: u8, blue: u8) -> Self {
        Color([red, green, blue])
    }
}

#[derive(Debug, Clone, Default, PartialEq, Eq)]
pub struct Font {
    pub color: Option<Color>,
}

/// Holds of a style only where it came from, until the outcome that brought it is seen.
#[derive(Debug, Clone, Default)]
pub struct CellStyle {
    pub font: Option<Font>,
    pub align: Option<()>,
    pub num_fmt: Option<()>,
    pub protection: Option<()>,
    pub unseen: Slot<Option<Layer>>,
}

impl CellStyle {
    pub fn new() -> Self {
        Self::default()
    }

    pub fn imported() -> Self {
        CellStyle { unseen: Slot::new(Some(Layer::Imported)), ..Self::default() }
    }

    pub fn fill(mut self, color: Color) -> Self {
        self.unseen = Slot::new(Some(Layer::Fill(color.0)));
        self
    }

    /// The original merges an outcome's style (self) with what the region has: the new one is still to be seen.
    pub fn merge(&self, _overlay: &CellStyle) -> Self {
        self.clone()
    }
}

#[derive(Debug, Clone, Copy, PartialEq, Eq)]
pub enum StyleLossKind {
    UnresolvedColor,
}

/// Never made: the domain has no style losses.
#[derive(Debug, Clone)]
pub struct StyleLoss {
    pub kind: StyleLossKind,
    pub occurrences: u32,
}

#[derive(Debug, Clone, Default)]
pub struct ConditionalFormatMetadata {
    pub priority: Option<u32>,
    pub stop_if_true: bool,
    pub differential_style: Option<CellStyle>,
    pub style_losses: Vec<StyleLoss>,
}

/// Formulas are texts, which the original reads itself. The width of `rank` is not shown.
#[derive(Debug, Clone)]
pub enum CfRule {
    CellIs { op: DvOp, formula1: String, formula2: Option<String>, fill: Color },
    ColorScale2 { min: Color, max: Color },
    ColorScale3 { min: Color, mid: Color, max: Color },
    DataBar { color: Color },
    TopBottom { rank: u32, bottom: bool, percent: bool, fill: Color },
    AboveAverage { below: bool, fill: Color },
    DuplicateValues { unique: bool, fill: Color },
    Expression { formula: String, fill: Color },
}

#[derive(Debug, Clone)]
pub struct ConditionalFormat {
    pub sqref: (u32, u16, u32, u16),
    pub rule: CfRule,
}

/// The rules of a sheet. Taking one by its index tells the log which one the original has taken up.
#[derive(Debug, Clone, Default)]
pub struct Formats(pub Vec<ConditionalFormat>);

impl Formats {
    pub fn len(&self) -> usize {
        self.0.len()
    }

    pub fn is_empty(&self) -> bool {
        self.0.is_empty()
    }

    pub fn get(&self, index: usize) -> Option<&ConditionalFormat> {
        self.0.get(index)
    }
}

impl Index<usize> for Formats {
    type Output = ConditionalFormat;

    fn index(&self, index: usize) -> &ConditionalFormat {
        observe::rule_taken_up(index);
        &self.0[index]
    }
}

/// One cell per coordinate, rising by (row, col).
#[derive(Debug, Clone, Default)]
pub struct Sheet {
    pub name: String,
    pub cells: Vec<(u32, u16, Cell)>,
    pub formats: Formats,
    pub metadata: Vec<ConditionalFormatMetadata>,
}

impl Sheet {
    pub fn cell(&self, row: u32, col: u16) -> Option<&Cell> {
        let found = self.cells.binary_search_by_key(&(row, col), |cell| (cell.0, cell.1));
        found.ok().map(|index| &self.cells[index].2)
    }

    pub fn conditional_formats(&self) -> &Formats {
        &self.formats
    }

    pub fn conditional_format_metadata(&self) -> &[ConditionalFormatMetadata] {
        &self.metadata
    }

    /// Asked by the wrapper only, which is left out.
    pub fn resolved_cell_style(&self, _row: u32, _col: u16) -> Option<CellStyle> {
        unreachable!("left out by document 01")
    }
}
