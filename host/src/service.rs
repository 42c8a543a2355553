//! The service: the callers' records and the buffers that are lent for each call.

use crate::answer::Answer;
use crate::class_load::{self, ClassLoad};
use crate::ffi::{self, Caller, Reply};
use crate::limits;
use crate::refusal::Refusal;

/// Words of the answer buffer that stay allocated between calls.
const KEPT_ANSWER: usize = 1 << 16;

/// Bytes of text that are lent first for a drawing.
const FIRST_TEXT: usize = 1 << 12;

/// How many words of answer are lent first for a sheet of so many words.
pub fn first_lent(sheet_words: usize) -> usize {
    sheet_words.clamp(1 << 11, limits::WORDS)
}

/// Owns the callers' records and the buffers of the library's call.
///
/// A call names its caller by position, from 0. Each caller has serials of its own, which count its
/// accepted calls; what others do changes none of its answers and none of its serials.
///
/// ```
/// # let words = service_host::ClassLoad { seed: 0, identifiers: 2, effects: 1 }.words()?;
/// use service_host::{Refusal, Service};
///
/// let mut service = Service::callers(2);
/// assert_eq!(service.infer(0, &words)?.serial(), 0);
/// assert_eq!(service.infer(0, &words)?.serial(), 1);
/// assert_eq!(service.infer(1, &words)?.serial(), 0);
/// assert_eq!(service.infer(2, &words).unwrap_err(), Refusal::OutsideRecords);
///
/// // Kept, and gone on with.
/// let kept: Vec<u32> = service.next_serials().collect();
/// assert_eq!(kept, [2, 1]);
/// assert_eq!(Service::resume(kept).infer(0, &words)?.serial(), 2);
/// # Ok::<(), Refusal>(())
/// ```
///
/// Buffers are kept from call to call. Most answers are shorter than their sheet, and so many
/// words are lent first (at least 2,048), because the library clears every word that it is lent.
/// A longer answer (diagnostics can make it millions of words long) is asked for again with a
/// larger buffer; if that is very large, the next call gives it back. A refused attempt takes no
/// serial.
///
/// A service is used by one thread at a time; several services share nothing.
#[derive(Debug)]
pub struct Service {
    callers: Vec<Caller>,
    workspace: Box<[u32]>,
    answer: Vec<u32>,
    most_answer: usize,
}

impl Service {
    /// A service of one caller, at position 0, whose first serial is 0.
    pub fn new() -> Service {
        Service::callers(1)
    }

    /// A service of so many callers, at the positions from 0 on, each with 0 as its first serial.
    pub fn callers(count: usize) -> Service {
        Service::resume(vec![ffi::new_caller().next; count])
    }

    /// A service whose callers' next serials are given, by position: those of a service that ran
    /// before ([`Service::next_serials`]).
    pub fn resume(next_serials: impl IntoIterator<Item = u32>) -> Service {
        Service {
            callers: next_serials.into_iter().map(|next| Caller { next }).collect(),
            workspace: vec![0; ffi::least_workspace()].into(),
            answer: Vec::new(),
            most_answer: limits::ANSWER,
        }
    }

    /// Answers of more words than this are refused 9. Without it every answer is given, at most
    /// some 68 megabytes.
    pub fn most_answer(mut self, words: usize) -> Service {
        self.most_answer = words.min(limits::ANSWER);
        self
    }

    /// For each caller, by position, the serial that its next accepted call takes.
    pub fn next_serials(&self) -> impl ExactSizeIterator<Item = u32> {
        self.callers.iter().map(|caller| caller.next)
    }

    /// The answer for a sheet's words, or why there is none. Only an accepted call takes a serial:
    /// its caller's next one. A caller that the service does not have is refused
    /// [`Refusal::OutsideRecords`].
    pub fn infer(&mut self, caller: usize, sheet: &[u32]) -> Result<Answer<'_>, Refusal> {
        if self.answer.len() > KEPT_ANSWER {
            self.answer = Vec::new();
        }
        let mut lent = first_lent(sheet.len()).min(self.most_answer);
        let mut reply = self.attempt(caller, sheet, lent);
        while reply.refusal == Refusal::ShortAnswer.number() && lent < self.most_answer {
            lent = (16 * lent).min(self.most_answer);
            reply = self.attempt(caller, sheet, lent);
        }
        match reply.refusal {
            0 => Ok(Answer::new(reply.serial, &self.answer[..reply.length])),
            number => Err(Refusal::of_library(number)),
        }
    }

    /// The graph of a sheet as a DOT file, which Graphviz draws: a line for each node, then one for
    /// each relation, with its kind and its index. Refused is what [`Service::infer`] refuses, but for
    /// an Apply among an instruction's effects, which is drawn as if it were not there. A drawing
    /// names no caller and takes no serial.
    ///
    /// ```
    /// let (sheet, _) = service_host::text::parse(
    ///     "identifier props\nidentifier list\nparam props\nreturns list\nblock 0\n\
    ///      instruction at 1\nCapture props into list\nterminal Other at 2\n",
    /// )?;
    /// let text = service_host::Service::new().dot(&sheet.words())?;
    /// let lines = ["digraph g {", "  n0;", "  n1;", "  n0 -> n1 [label=\"capture 0\"];", "}"];
    /// assert!(text.lines().eq(lines));
    /// # Ok::<(), Box<dyn std::error::Error>>(())
    /// ```
    pub fn dot(&mut self, sheet: &[u32]) -> Result<String, Refusal> {
        let mut text = vec![0; FIRST_TEXT];
        loop {
            let reply = ffi::dot(sheet, &mut self.workspace, &mut text);
            match reply.refusal {
                0 => {
                    text.truncate(reply.length);
                    return Ok(String::from_utf8(text).expect("a drawing is ASCII"));
                }
                number if number == Refusal::ShortAnswer.number() => {
                    text = vec![0; 16 * text.len()];
                }
                number => return Err(Refusal::of_library(number)),
            }
        }
    }

    /// The words of a class load for a caller. Refused is a caller that the service does not have,
    /// with [`Refusal::OutsideRecords`], then what [`ClassLoad::words`] refuses. A load takes no serial.
    pub fn load(&self, caller: usize, load: ClassLoad) -> Result<Vec<u32>, Refusal> {
        let ClassLoad { seed, identifiers, effects } = load;
        class_load::made(|words| {
            ffi::load_for(&self.callers, caller, seed, identifiers, effects, words)
        })
    }

    /// A call with so many words of the answer buffer.
    fn attempt(&mut self, caller: usize, sheet: &[u32], lent: usize) -> Reply {
        if self.answer.len() < lent {
            self.answer = vec![0; lent];
        }
        let answer = &mut self.answer[..lent];
        ffi::infer(&mut self.callers, caller, sheet, &mut self.workspace, answer)
    }
}

impl Default for Service {
    fn default() -> Service {
        Service::new()
    }
}
