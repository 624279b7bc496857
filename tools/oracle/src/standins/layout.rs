//! Stand-ins for the module `layout` of the original, around the original's own module `conditional`.

use std::collections::BTreeMap;
use std::ops::{Deref, DerefMut};

use crate::error::{LimitKind, RenderError};
use crate::observe;
use crate::scene::{Rect, Rgb, SceneNode};
use crate::typography::CellLineLayoutPolicy;
use crate::{CellStyle, Color, DisplayCell, Sheet};

include!(concat!(env!("OUT_DIR"), "/original.rs"));

/// `resolve_conditional_paints` of the original, or of a damaged copy.
pub type Resolve = fn(
    &Sheet,
    &BTreeMap<CellCoordinate, DisplayCell<'_>>,
    &mut [Region],
    &RenderOptions,
    &mut Warnings,
    &mut u64,
    bool,
) -> Result<bool, RenderError>;

pub const ORIGINAL: Resolve = conditional::resolve_conditional_paints;

/// The grid of document 01; the constants are not shown.
pub const MAX_WORKSHEET_ROW: u32 = 1_048_575;
pub const MAX_WORKSHEET_COLUMN: u16 = 16_383;

/// Refuses above the limit: document 01 answers its example at limit 11 and not at 10. The text is not shown.
pub fn enforce(kind: LimitKind, limit: u64, actual: u64) -> Result<(), RenderError> {
    if actual > limit {
        return Err(RenderError::LimitExceeded { kind, limit, actual });
    }
    Ok(())
}

pub fn rgb(color: Color) -> Rgb {
    Rgb::new(color.0[0], color.0[1], color.0[2])
}

#[derive(Debug, Clone, Copy, PartialEq, Eq, PartialOrd, Ord)]
pub struct CellCoordinate {
    pub row: u32,
    pub col: u16,
}

/// `lies` is where the text lies in memory, noted for the probe of the split only.
#[derive(Debug, Clone, PartialEq)]
pub struct A1Reference {
    pub sheet: Option<String>,
    pub row: u32,
    pub col: u16,
    pub row_absolute: bool,
    pub col_absolute: bool,
    pub lies: Option<(usize, usize)>,
}

/// Reads the operand form of the job text, `rROW,COL,ABS,NAME`. How the original reads A1 is not shown, and left out.
pub fn parse_a1_reference(text: &str) -> Option<A1Reference> {
    if observe::any_reference() {
        let lies = Some((text.as_ptr() as usize, text.len()));
        return Some(A1Reference { sheet: None, row: 0, col: 0, row_absolute: false, col_absolute: false, lies });
    }
    let mut parts = text.strip_prefix('r')?.split(',');
    let (row, col) = (parts.next()?.parse().ok()?, parts.next()?.parse().ok()?);
    let absolute: u8 = parts.next()?.parse().ok()?;
    let sheet = match parts.next()? {
        "-" => None,
        name => Some(crate::carry::name_from_hex(name.strip_prefix('t')?)?),
    };
    Some(A1Reference { sheet, row, col, row_absolute: absolute & 1 != 0, col_absolute: absolute & 2 != 0, lies: None })
}

/// Every cell of the range, rising by (row, col); the order of the original is not shown.
pub struct SparseDisplayCellIndex<'a>(&'a Sheet);

impl<'a> SparseDisplayCellIndex<'a> {
    pub fn new(sheet: &'a Sheet) -> Self {
        SparseDisplayCellIndex(sheet)
    }

    pub fn range(&self, range: (u32, u16, u32, u16)) -> impl Iterator<Item = DisplayCell<'a>> {
        let inside = move |row: u32, col: u16| range.0 <= row && row <= range.2 && range.1 <= col && col <= range.3;
        let cells = self.0.cells.iter().filter(move |cell| inside(cell.0, cell.1));
        cells.map(|cell| DisplayCell { row: cell.0, col: cell.1, value: &cell.2 })
    }
}

pub struct ConditionalOutcome {
    pub style: Option<CellStyle>,
    pub data_bar: Option<DataBarPaint>,
    pub stop_if_true: bool,
    pub text_measurement_unresolved: bool,
}

#[derive(Debug)]
pub struct DataBarPaint {
    pub color: Rgb,
    pub width_ppm: u32,
}

impl Drop for DataBarPaint {
    fn drop(&mut self) {
        observe::bar_dropped([self.color.red, self.color.green, self.color.blue], self.width_ppm);
    }
}

#[derive(Debug, Default)]
pub struct BarSlot {
    pub data_bar: Option<DataBarPaint>,
}

/// `data_bar` is reached through `Deref`: the original asks `paint.data_bar.is_none()` once for each outcome that passed the
/// stopped test, after its style was merged, and that is where the outcome is seen.
#[derive(Debug)]
pub struct ConditionalPaint {
    pub style: Option<CellStyle>,
    pub number: u64,
    pub bar: BarSlot,
}

impl Default for ConditionalPaint {
    fn default() -> Self {
        ConditionalPaint { style: None, number: observe::paint_number(), bar: BarSlot::default() }
    }
}

impl Deref for ConditionalPaint {
    type Target = BarSlot;

    fn deref(&self) -> &BarSlot {
        let layer = self.style.as_ref().and_then(|style| style.unseen.take());
        observe::outcome_passed(self.number, layer, self.bar.data_bar.is_some());
        &self.bar
    }
}

impl DerefMut for ConditionalPaint {
    fn deref_mut(&mut self) -> &mut BarSlot {
        &mut self.bar
    }
}

/// Rules use `source`, `style` and `conditional`; the rest is layout, which document 01 leaves out.
pub struct Region {
    pub source: CellCoordinate,
    pub rect: Rect,
    pub is_merged: bool,
    pub line_layout_policy: CellLineLayoutPolicy,
    pub line_placement_policy: CalcLinePlacementPolicy,
    pub calc_wrap_space: Option<()>,
    pub style: Option<CellStyle>,
    pub conditional: ConditionalPaint,
    pub text: String,
    pub rich_text: Option<()>,
    pub hyperlink: Option<()>,
    pub numeric_default: bool,
    pub text_can_overflow: bool,
    pub fixed_height_row: bool,
    pub ods_fixed_height_row: bool,
    pub print_vertical_overflow: bool,
    pub vertical_margin: (),
}

#[derive(Debug, Clone, Copy)]
pub enum CalcLinePlacementPolicy {
    Native,
}

pub struct Limits {
    pub max_conditional_evaluations: u64,
}

pub struct RenderOptions {
    pub limits: Limits,
}

pub enum WarningCode {
    ConditionalFormattingDeferred,
    ConditionalDataBarSimplified,
}

#[derive(Default)]
pub struct Warnings {
    pub deferred: u64,
    pub simplified: u64,
}

impl Warnings {
    pub fn add(&mut self, code: WarningCode, place: Option<CellCoordinate>) {
        self.add_count(code, 1, place);
    }

    pub fn add_count(&mut self, code: WarningCode, count: u64, _place: Option<CellCoordinate>) {
        match code {
            WarningCode::ConditionalFormattingDeferred => self.deferred += count,
            WarningCode::ConditionalDataBarSimplified => self.simplified += count,
        }
    }
}

/// Asked by the wrapper only, which is left out.
pub struct RenderStyleSnapshot(());

impl RenderStyleSnapshot {
    pub fn owned_style(&self, _source: CellCoordinate) -> Option<CellStyle> {
        unreachable!("left out by document 01")
    }
}

pub fn calc_cell_vertical_margin(_sheet: &Sheet) {
    unreachable!("left out by document 01")
}

pub fn push_node(_nodes: &mut [SceneNode], _node: SceneNode, _options: &RenderOptions) -> Result<(), RenderError> {
    unreachable!("left out by document 01")
}

pub mod geometry {
    pub fn verified_implicit_ooxml(_sheet: &crate::Sheet, _options: &super::RenderOptions) -> bool {
        unreachable!("left out by document 01")
    }
}

pub mod text {
    use crate::error::RenderError;
    use crate::scene::Fixed;

    pub fn multiply_fixed(_value: Fixed, _times: i64) -> Result<Fixed, RenderError> {
        unreachable!("left out by document 01")
    }
}
