//! Refusals.

use std::fmt;

/// Why a call was refused. 11 is checked first, then 1 and 2; 3 to 6, and 8 for mutations and renders,
/// come from one reading left to right, where the first faulty word decides, and for one word the lower
/// number; then come 7, 8 for the edges and entries that are held, 10 and 9.
///
/// The library says no more than the number. Which word is faulty and what was expected there says
/// [`Sheet::read`](crate::Sheet::read) of the same words; how many mutations and renders a sheet has
/// says [`Sheet::totals`](crate::Sheet::totals), how many edges and entries are held together
/// [`Sheet::held`](crate::Sheet::held), and which instructions have Apply
/// [`Sheet::applies`](crate::Sheet::applies).
#[derive(Debug, Clone, Copy, PartialEq, Eq, Hash)]
#[repr(u32)]
#[non_exhaustive]
pub enum Refusal {
    /// The workspace has fewer than 16,384 words. Cannot come from [`Service`](crate::Service),
    /// which lends enough.
    ShortWorkspace = 1,
    /// The sheet has more than 16,384 words.
    LongSheet = 2,
    /// The sheet ends where a word is due.
    SheetEnds = 3,
    /// A count is above its limit, or differs from a fixed count.
    Count = 4,
    /// A word is outside its range; of a class load, how many identifiers or effects it has.
    OutOfRange = 5,
    /// A block number is used a second time, or a phi names one predecessor twice.
    UsedTwice = 6,
    /// Words follow the last block.
    WordsFollow = 7,
    /// The sheet has over 512 mutations or 256 renders, or over 1,024 forward edges or entries would be
    /// held together. Mutations and renders are counted while the sheet is read, so that a sheet that
    /// passes a total and is cut behind that is refused 8. What is held is seen while the graph is
    /// built, after 7 and before 10, also if it would be given back later.
    Totals = 8,
    /// The answer buffer is shorter than the answer, or fewer words are lent than a class load has, or
    /// fewer bytes than a drawing. Comes from [`Service`](crate::Service) only where it was given a
    /// longest answer, and never from [`ClassLoad`](crate::ClassLoad) or for a drawing.
    ShortAnswer = 9,
    /// Apply is among an instruction's effects. A drawing does not mind it.
    Apply = 10,
    /// The caller's position is outside the records: no caller of the [`Service`](crate::Service) has
    /// it. Every record is unchanged.
    OutsideRecords = 11,
}

impl Refusal {
    /// All, in the order of their numbers.
    pub const ALL: [Refusal; 11] = [
        Refusal::ShortWorkspace,
        Refusal::LongSheet,
        Refusal::SheetEnds,
        Refusal::Count,
        Refusal::OutOfRange,
        Refusal::UsedTwice,
        Refusal::WordsFollow,
        Refusal::Totals,
        Refusal::ShortAnswer,
        Refusal::Apply,
        Refusal::OutsideRecords,
    ];

    /// The number, 1 to 11.
    pub fn number(self) -> u32 {
        self as u32
    }

    /// The refusal of a number; none for 0, which stands for no refusal, and above 11.
    pub fn from_number(number: u32) -> Option<Refusal> {
        Refusal::ALL.into_iter().find(|r| r.number() == number)
    }

    /// The refusal of a number that the library gave, which is not 0.
    pub(crate) fn of_library(number: u32) -> Refusal {
        Refusal::from_number(number)
            .expect("the library linked is the one that this wrapper was written for")
    }

    /// What the number stands for, in one sentence.
    pub fn sentence(self) -> &'static str {
        match self {
            Refusal::ShortWorkspace => "The workspace has fewer than 16,384 words.",
            Refusal::LongSheet => "The sheet has more than 16,384 words.",
            Refusal::SheetEnds => "The sheet ends where a word is due.",
            Refusal::Count => "A count is above its limit, or differs from a fixed count.",
            Refusal::OutOfRange => "A word is outside its range.",
            Refusal::UsedTwice => {
                "A block number is used a second time, or a phi names one predecessor twice."
            }
            Refusal::WordsFollow => "Words follow the last block.",
            Refusal::Totals => {
                "The sheet has over 512 mutations or 256 renders, or holds over 1,024 edges or entries."
            }
            Refusal::ShortAnswer => "The answer buffer is shorter than the answer.",
            Refusal::Apply => "Apply is among an instruction's effects.",
            Refusal::OutsideRecords => "The caller's position is outside the records.",
        }
    }
}

impl fmt::Display for Refusal {
    fn fmt(&self, f: &mut fmt::Formatter) -> fmt::Result {
        write!(f, "refused {}: {}", self.number(), self.sentence())
    }
}

impl std::error::Error for Refusal {}
