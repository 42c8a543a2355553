//! The limits of a sheet, of an answer, of a class load and of a drawing. `docs/FORMAT.md` of the
//! repository has them all.

use std::ops::RangeInclusive;

/// Of words of a sheet.
pub const WORDS: usize = 16_384;

/// Of identifiers.
pub const IDENTIFIERS: usize = 512;
/// Of inner functions.
pub const FUNCTIONS: usize = 64;
/// Of diagnostics of an inner function.
pub const FUNCTION_DIAGNOSTICS: usize = 64;
/// Of parameters, of context variables, of context places of an inner function, and of value
/// lvalues and operands of an instruction and operands of a terminal.
pub const PLACES: usize = 64;
/// Of blocks.
pub const BLOCKS: usize = 256;
/// Of phis in a block, operands in a phi, instructions in a block, and effects in a list.
pub const COUNT: usize = 1_024;
/// The count of an instruction's effects that stands for an absent list, which is not an empty one.
pub const ABSENT_EFFECTS: u32 = 4_294_967_295;

/// Of a range's start and of its end.
pub const RANGE: u32 = 1_000_000;
/// Of the order of an instruction or a terminal.
pub const ORDER: u32 = 999_999;
/// Of a block's number.
pub const BLOCK_NUMBER: u32 = 65_535;
/// Of each half of a diagnostic.
pub const DIAGNOSTIC: u32 = 65_535;

/// Of forward edges held together, and likewise of entries; see [`Held`](crate::Held).
pub const HELD: usize = 1_024;
/// Of mutations in the whole sheet; see [`Totals`](crate::Totals).
pub const MUTATIONS: usize = 512;
/// Of renders in the whole sheet.
pub const RENDERS: usize = 256;

/// Of identifiers of a class load, see [`ClassLoad`](crate::ClassLoad).
pub const LOAD_IDENTIFIERS: RangeInclusive<u32> = 2..=512;
/// Of effects of a class load.
pub const LOAD_EFFECTS: RangeInclusive<u32> = 1..=512;
/// Of words of a class load: with so many lent, none is refused 9.
pub const LOAD: usize =
    21 + 3 * *LOAD_IDENTIFIERS.end() as usize + 16 * *LOAD_EFFECTS.end() as usize;

/// Of bytes of a drawing, see [`Service::dot`](crate::Service::dot): its first and last line, a line of
/// at most 8 bytes for each identifier, and one of at most 39 for each edge, whose index has at most
/// four digits. That is counted, not proved.
pub const DRAWING: usize = 12 + 8 * IDENTIFIERS + 39 * HELD + 2;

/// Of words of an answer: no sheet has a longer one. Ten counts and the records of each section,
/// every section as long as it can be alone, but the places of the last four as many together as
/// a sheet can have.
pub const ANSWER: usize = 10
    + 2 * IDENTIFIERS
    + 3 * TRACKED
    + 2 * (EFFECTS + IDENTIFIERS * RENDERS * FUNCTION_DIAGNOSTICS)
    + 8 * (EFFECTS + 2 * TRACKED + 1 + TRACKED * TRACKED)
    + (MUTATIONS + TRACKED + 1)
    + 3 * (WORDS / 3);

/// Of parameters and context variables together.
const TRACKED: usize = 2 * PLACES;
/// More than the effects of a sheet can be: each takes eight words.
const EFFECTS: usize = WORDS / 8;
