//! Stand-in for `oxc_syntax`: the names that `react_compiler_hir` imports.

pub mod number {
    /// Not called by the pass.
    pub trait ToJsString {
        fn to_js_string(&self) -> String;
    }

    impl ToJsString for f64 {
        fn to_js_string(&self) -> String {
            self.to_string()
        }
    }
}

pub mod operator {
    #[derive(Debug, Clone, Copy, PartialEq, Eq)]
    pub enum LogicalOperator {
        Or,
        And,
        Coalesce,
    }

    /// Not looked at by the pass.
    #[derive(Debug, Clone, Copy, PartialEq, Eq)]
    pub enum BinaryOperator {
        Equality,
    }

    #[derive(Debug, Clone, Copy, PartialEq, Eq)]
    pub enum UpdateOperator {
        Increment,
        Decrement,
    }
}
