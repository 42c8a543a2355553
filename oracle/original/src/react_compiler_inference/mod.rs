//! Stand-in: the one pass, and the graph that it builds.

pub mod graph;
pub mod infer_mutation_aliasing_ranges;
