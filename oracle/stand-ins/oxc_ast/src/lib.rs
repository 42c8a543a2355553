//! Stand-in for `oxc_ast`: the names that `react_compiler_hir` imports.

pub mod ast {
    pub use oxc_span::Span;
    pub use oxc_syntax::operator::{BinaryOperator, LogicalOperator, UpdateOperator};

    /// Not looked at by the pass.
    #[derive(Debug)]
    pub struct TSType<'a>(pub &'a ());
}
