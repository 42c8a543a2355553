//! The answer of an accepted call.

use std::fmt;

use crate::parts::{
    AliasingDiagnostic, AliasingEffect, EvaluationOrder, IdentifierId, MutableRange, Place,
};

/// The name of each section and how many words a record of it has.
const SECTIONS: [(&str, usize); 10] = [
    ("ranges", 2),
    ("params", 3),
    ("context", 3),
    ("diagnostics", 2),
    ("effects", 8),
    ("walks", 1),
    ("phis", 3),
    ("instructions", 3),
    ("terminals", 3),
    ("inner", 3),
];

/// What the library says must be as the library promises.
const PROMISED: &str = "the library's answer has the sections that it promises";

/// An answer, in the service's buffer until the next call.
///
/// `Display` writes the ten lines that the program `ranges` prints.
#[derive(Clone, Copy)]
pub struct Answer<'s> {
    serial: u32,
    words: &'s [u32],
    /// The records of each section.
    sections: [&'s [u32]; 10],
}

impl<'s> Answer<'s> {
    /// The answer of these words, which are whole sections.
    pub(crate) fn new(serial: u32, words: &'s [u32]) -> Answer<'s> {
        let mut rest = words;
        let sections = SECTIONS.map(|(_, size)| {
            let (count, after) = rest.split_first().expect(PROMISED);
            let (section, after) = after.split_at_checked(*count as usize * size).expect(PROMISED);
            rest = after;
            section
        });
        assert!(rest.is_empty(), "{PROMISED}");
        Answer { serial, words, sections }
    }

    /// The number of this accepted call, from 0; after 4,294,967,295 comes 0.
    pub fn serial(&self) -> u32 {
        self.serial
    }

    /// The range of each identifier, in order. The end is moved to behind the last mutation that
    /// reaches the value; then the pass over operands sets a start or an end that is unset, and
    /// moves the end of what StoreContext stores.
    pub fn ranges(&self) -> impl ExactSizeIterator<Item = MutableRange> + use<'s> {
        self.sections[0].as_chunks().0.iter().map(|&[start, end]| MutableRange {
            start: EvaluationOrder(start),
            end: EvaluationOrder(end),
        })
    }

    /// The range of one identifier; none if the sheet has no such identifier.
    pub fn range(&self, identifier: IdentifierId) -> Option<MutableRange> {
        self.ranges().nth(identifier.0 as usize)
    }

    /// The parameters, in order; the effect of one that is mutated is now Capture.
    pub fn params(&self) -> impl ExactSizeIterator<Item = Place> + use<'s> {
        places(self.sections[1])
    }

    /// The context variables, in order; the effect of one that is mutated is now Capture.
    pub fn context(&self) -> impl ExactSizeIterator<Item = Place> + use<'s> {
        places(self.sections[2])
    }

    /// The diagnostics, in the order in which they were recorded.
    pub fn diagnostics(&self) -> impl ExactSizeIterator<Item = AliasingDiagnostic> + use<'s> {
        let diagnostic =
            |&[identity, instance]: &[u32; 2]| AliasingDiagnostic::new(identity, instance);
        self.sections[3].as_chunks().0.iter().map(diagnostic)
    }

    /// What a call of the function does, in the original's order.
    pub fn effects(&self) -> impl ExactSizeIterator<Item = AliasingEffect> + use<'s> {
        let effect = |&words: &[u32; 8]| AliasingEffect::from_words(words).expect(PROMISED);
        self.sections[4].as_chunks().0.iter().map(effect)
    }

    /// How many entries each walk took: those of the sheet's mutations, then the simulated ones.
    pub fn walks(&self) -> &'s [u32] {
        self.sections[5]
    }

    /// The sheet's phis, in order, each before its operands, with the effects that the pass over
    /// operands gives them.
    pub fn phis(&self) -> impl ExactSizeIterator<Item = Place> + use<'s> {
        places(self.sections[6])
    }

    /// The places of the sheet's instructions, in order: each lvalue, value lvalues and operands,
    /// with the effects that the pass over operands gives them.
    pub fn instructions(&self) -> impl ExactSizeIterator<Item = Place> + use<'s> {
        places(self.sections[7])
    }

    /// The values of Return and the operands of other terminals, in order, with the effects that
    /// the pass over operands gives them.
    pub fn terminals(&self) -> impl ExactSizeIterator<Item = Place> + use<'s> {
        places(self.sections[8])
    }

    /// The context places of the sheet's inner functions, in order. Those of a function that an
    /// instruction makes have the effects that the pass over operands gives them.
    pub fn inner(&self) -> impl ExactSizeIterator<Item = Place> + use<'s> {
        places(self.sections[9])
    }

    /// The words as the library wrote them.
    pub fn words(&self) -> &'s [u32] {
        self.words
    }
}

fn places<'s>(section: &'s [u32]) -> impl ExactSizeIterator<Item = Place> + use<'s> {
    section.as_chunks().0.iter().map(|&words| Place::from_words(words).expect(PROMISED))
}

impl fmt::Display for Answer<'_> {
    fn fmt(&self, f: &mut fmt::Formatter) -> fmt::Result {
        for ((name, size), section) in SECTIONS.iter().zip(self.sections) {
            write!(f, "{name} {}", section.len() / size)?;
            for word in section {
                write!(f, " {word}")?;
            }
            writeln!(f)?;
        }
        Ok(())
    }
}

impl fmt::Debug for Answer<'_> {
    fn fmt(&self, f: &mut fmt::Formatter) -> fmt::Result {
        f.debug_struct("Answer")
            .field("serial", &self.serial)
            .field("ranges", &self.ranges().collect::<Vec<_>>())
            .field("params", &self.params().collect::<Vec<_>>())
            .field("context", &self.context().collect::<Vec<_>>())
            .field("diagnostics", &self.diagnostics().collect::<Vec<_>>())
            .field("effects", &self.effects().collect::<Vec<_>>())
            .field("walks", &self.walks())
            .field("phis", &self.phis().collect::<Vec<_>>())
            .field("instructions", &self.instructions().collect::<Vec<_>>())
            .field("terminals", &self.terminals().collect::<Vec<_>>())
            .field("inner", &self.inner().collect::<Vec<_>>())
            .finish()
    }
}
