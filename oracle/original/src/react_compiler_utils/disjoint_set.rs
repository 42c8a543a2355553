//! Stand-in. Not used by the pass.

pub struct DisjointSet;
