//! Stand-in, empty. Not used by the pass.
