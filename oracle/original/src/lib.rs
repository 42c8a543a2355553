//! The original pass `infer_mutation_aliasing_ranges`. SHA256SUMS lists the files
//! carried over unchanged; every other file is a stand-in for what they import.

#![allow(dead_code, unused_imports, unused_variables)]

pub mod diagnostics;
pub mod options;
pub mod react_compiler_hir;
pub mod react_compiler_inference;
pub mod react_compiler_utils;
