//! Stand-in. Not used by the pass.

pub enum PanicThreshold {
    AllErrors,
    CriticalErrors,
    None,
}
