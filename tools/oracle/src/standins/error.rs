//! Stand-ins for crate::error of the original.

#[derive(Debug, Clone, Copy, PartialEq, Eq)]
pub enum LimitKind {
    ConditionalEvaluations,
}

#[derive(Debug, Clone, PartialEq, Eq)]
pub enum RenderError {
    LimitExceeded {
        kind: LimitKind,
        limit: u64,
        actual: u64,
    },
    CoordinateOverflow,
    /// Comes from the wrapper only, which is left out.
    Typography {
        reason: &'static str,
    },
}
