//! The oracle: the original conditional.rs, unchanged, over small stand-ins for what it imports, with a reading of the job text and a
//! printing of the report that were written from document 01. README.md says what is the original's and what is not.

// The original names its types as `rxls::Cell` and so on.
extern crate self as rxls;

#[path = "standins/error.rs"]
pub mod error;
#[path = "standins/layout.rs"]
pub mod layout;
#[path = "standins/model.rs"]
mod model;
#[path = "standins/scene.rs"]
pub mod scene;
#[path = "standins/typography.rs"]
pub mod typography;

pub use model::{
    Cell, CellStyle, CfRule, Color, ConditionalFormat, ConditionalFormatMetadata, DisplayCell, DvOp, Font, Formats, Sheet, StyleLoss,
    StyleLossKind, DV_OPS,
};

pub mod a1;
pub mod a1_damage;
pub mod a1_lines;
#[cfg(test)]
mod a1_tests;
pub mod answer;
pub mod bench_jobs;
pub mod carry;
pub mod checks;
pub mod clock;
pub mod command;
pub mod curated;
pub mod decide;
pub mod drive;
#[cfg(test)]
mod drive_tests;
pub mod generate;
pub mod guarded;
pub mod job;
pub mod leaf_lines;
pub mod leaves;
#[cfg(feature = "library")]
pub mod library;
pub mod observe;
pub mod read;
pub mod read_fields;
pub mod read_rules;
pub mod report;
pub mod rng;
pub mod saves;
#[cfg(test)]
mod saves_tests;
pub mod sha256;
pub mod shape;
#[cfg(test)]
mod shape_tests;
pub mod shrink;
pub mod stored;
pub mod tour;
pub mod write;
