//! Stand-in for `oxc_diagnostics`. A diagnostic also carries the sheet's two
//! numbers.
//! Cloning counts a reference; the real one allocates.

use std::borrow::Cow;
use std::ops::Deref;
use std::rc::Rc;

use oxc_span::Span;

#[derive(Debug, Clone, Copy, PartialEq, Eq)]
pub enum Severity {
    Advice,
    Warning,
    Error,
}

#[derive(Debug, Clone)]
pub struct OxcDiagnosticInner {
    pub message: Cow<'static, str>,
    pub labels: Vec<Span>,
    pub severity: Severity,
    /// Identity and instance.
    pub numbers: (u32, u32),
}

#[derive(Debug, Clone)]
pub struct OxcDiagnostic {
    inner: Rc<OxcDiagnosticInner>,
}

pub type Diagnostics = Vec<OxcDiagnostic>;

impl Deref for OxcDiagnostic {
    type Target = OxcDiagnosticInner;
    fn deref(&self) -> &OxcDiagnosticInner {
        &self.inner
    }
}

impl OxcDiagnostic {
    fn new(message: Cow<'static, str>, severity: Severity, numbers: (u32, u32)) -> Self {
        let inner = OxcDiagnosticInner { message, labels: Vec::new(), severity, numbers };
        OxcDiagnostic { inner: Rc::new(inner) }
    }

    pub fn error(message: impl Into<Cow<'static, str>>) -> Self {
        Self::new(message.into(), Severity::Error, (0, 0))
    }

    pub fn warn(message: impl Into<Cow<'static, str>>) -> Self {
        Self::new(message.into(), Severity::Warning, (0, 0))
    }

    /// The sheet's diagnostic of this identity and instance.
    pub fn numbered(identity: u32, instance: u32) -> Self {
        Self::new(Cow::Borrowed(""), Severity::Error, (identity, instance))
    }

    #[must_use]
    pub fn with_label(mut self, span: Span) -> Self {
        Rc::make_mut(&mut self.inner).labels.push(span);
        self
    }
}
