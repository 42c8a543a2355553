//! Stand-in for `Environment`: the fields and functions that the pass uses.
//! `enable_validations` is always true in the original; here it gives the
//! sheet's flag. A diagnostic that is kept has the sheet's two numbers.

use oxc_allocator::Allocator;
use oxc_diagnostics::{Diagnostics, OxcDiagnostic};
use oxc_index::IndexVec;

use crate::react_compiler_hir::*;

pub struct Environment<'a> {
    pub allocator: &'a Allocator,
    pub identifiers: IndexVec<IdentifierId, Identifier<'a>>,
    pub types: IndexVec<TypeId, Type<'a>>,
    pub functions: IndexVec<FunctionId, HirFunction<'a>>,
    pub errors: Diagnostics,
    pub aliasing_diagnostic_instances: IndexVec<DiagnosticInstanceId, OxcDiagnostic>,
    pub validations: bool,
}

impl<'a> Environment<'a> {
    pub fn new(allocator: &'a Allocator, validations: bool) -> Self {
        Environment {
            allocator,
            identifiers: IndexVec::new(),
            types: IndexVec::new(),
            functions: IndexVec::new(),
            errors: Diagnostics::new(),
            aliasing_diagnostic_instances: IndexVec::new(),
            validations,
        }
    }

    pub fn record_diagnostic(&mut self, diagnostic: OxcDiagnostic) {
        self.errors.push(diagnostic);
    }

    /// Keep a diagnostic with the sheet's identity and instance, once for each mention.
    pub fn intern_aliasing_diagnostic(
        &mut self,
        identity: u32,
        instance: u32,
    ) -> AliasingDiagnostic {
        let kept = OxcDiagnostic::numbered(identity, instance);
        let instance = self.aliasing_diagnostic_instances.push(kept);
        AliasingDiagnostic::new(DiagnosticId::from_usize(identity as usize), instance)
    }

    pub fn aliasing_diagnostic(&self, diagnostic: AliasingDiagnostic) -> OxcDiagnostic {
        self.aliasing_diagnostic_instances[diagnostic.instance()].clone()
    }

    /// The sheet's identity and instance of a diagnostic.
    pub fn diagnostic_numbers(&self, diagnostic: AliasingDiagnostic) -> (u32, u32) {
        let kept = &self.aliasing_diagnostic_instances[diagnostic.instance()];
        (diagnostic.identity().index() as u32, kept.numbers.1)
    }

    pub fn enable_validations(&self) -> bool {
        self.validations
    }
}
