//! How long each value of one React function may still change: the proved library `service`,
//! for hosts in Rust.
//!
//! A [`Service`] takes a sheet, the words that describe one function, for one of its callers, and gives
//! an [`Answer`] or one of eleven [`Refusal`]s. It never panics and never runs without end, whatever
//! the words are: that is proved of the library behind it. Nothing is proved of this wrapper, which is
//! kept thin.
//!
//! ```
//! use service_host::{AliasingEffect, BlockId, EvaluationOrder, Identifier, Place, Service};
//! use service_host::{SheetBuilder, Terminal};
//!
//! # fn main() -> Result<(), Box<dyn std::error::Error>> {
//! // function panel(props) { const list = [props]; list.push(..); return list; }
//! let mut sheet = SheetBuilder::new();
//! sheet.validations(true);
//! let props = sheet.identifier(Identifier::default())?;
//! let list = sheet.identifier(Identifier::default())?;
//! let result = sheet.identifier(Identifier::default())?;
//! sheet.param(Place::of(props))?;
//! sheet.block(BlockId(0))?;
//! sheet.instruction(EvaluationOrder(1))?;
//! sheet.effect(AliasingEffect::create(list))?;
//! sheet.effect(AliasingEffect::Capture { from: Place::of(props), into: Place::of(list) })?;
//! sheet.instruction(EvaluationOrder(2))?;
//! sheet.effect(AliasingEffect::MutateTransitive { value: Place::of(list) })?;
//! sheet.terminal(Terminal::Return { order: EvaluationOrder(3), value: Place::of(list) })?;
//! let sheet = sheet.finish(Place::of(result))?;
//!
//! let mut service = Service::new();
//! let answer = service.infer(0, &sheet.words())?;
//! assert_eq!(answer.serial(), 0);
//! // The mutation at 2 also changes what the list has captured.
//! assert_eq!(answer.ranges().nth(0).unwrap().end, EvaluationOrder(3));
//! # Ok(())
//! # }
//! ```
//!
//! - [`Sheet`] and [`SheetBuilder`]: a sheet as typed parts, to and from words.
//! - [`text`]: a sheet as text that people read and write.
//! - [`ClassLoad`]: a sheet from a seed, the same everywhere.
//! - [`Service::dot`]: a sheet's graph as a DOT file, for Graphviz.
//! - [`ffi`]: the library's functions as they are, for hosts that lend their own buffers.

#![deny(missing_docs)]

mod answer;
mod builder;
mod class_load;
pub mod ffi;
mod held;
pub mod limits;
mod parts;
mod reading;
mod refusal;
mod service;
mod sheet;
mod spelling;
pub mod text;

pub use answer::Answer;
pub use builder::{PartError, SheetBuilder};
pub use class_load::ClassLoad;
pub use held::Held;
pub use parts::{
    AliasingDiagnostic, AliasingEffect, BlockId, DiagnosticId, DiagnosticInstanceId, Effect,
    EffectKind, EvaluationOrder, FunctionId, Identifier, IdentifierId, InstructionValue,
    MutableRange, MutationReason, Place, Type, ValueKind, ValueReason,
};
pub use reading::ReadError;
pub use refusal::Refusal;
pub use service::{Service, first_lent};
pub use sheet::{Block, InnerFunction, Instruction, Operand, Phi, Sheet, Terminal, Totals};

/// The program of README.md is tried as a test.
#[cfg(doctest)]
#[doc = include_str!("../README.md")]
struct Readme;
