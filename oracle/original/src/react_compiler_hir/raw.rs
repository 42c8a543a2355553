//! Stand-in. Not used by the pass.

#[derive(Debug, Clone, Copy, PartialEq, Eq)]
pub enum RawTypeCategory {
    Other,
}
