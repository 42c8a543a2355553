//! The library beside the original module, in one process.

pub mod clock;
pub mod guarded;
pub mod shapes;
pub mod sides;
