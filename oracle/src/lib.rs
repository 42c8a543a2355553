//! The oracle: the original pass, a plain implementation of document 01 (the customer's
//! paper on the sheet and the answer, which docs/FORMAT.md and crates/model/specs
//! restate), and sheets to hold them against each other.

pub mod boundaries;
pub mod callers;
pub mod cases;
pub mod certainty;
pub mod compare;
pub mod damage;
pub mod dense;
pub mod drawing;
pub mod forms;
pub mod generate;
pub mod graphviz;
pub mod held;
pub mod load;
pub mod original_side;
#[cfg(feature = "service")]
pub mod ours;
pub mod plain;
pub mod program;
pub mod random;
pub mod recreated;
pub mod replay;
pub mod text;
pub mod totals;
