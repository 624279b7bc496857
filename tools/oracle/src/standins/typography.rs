//! Stand-in for crate::typography of the original.

#[derive(Debug, Clone, Copy)]
pub enum CellLineLayoutPolicy {
    Native,
}
