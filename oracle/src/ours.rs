//! Our own library, linked as a static library with a C interface: one more `Side`. Built only
//! with the feature `service`.
//!
//! Before a call the workspace, the answer buffer and some words around them and around the callers'
//! records hold rubbish. After it the words around are as they were, the workspace and the words after
//! the answer are 0, the sheet is unchanged, and every record is the one that is counted here: the
//! caller's has moved on by one if the call was accepted. It serves lists of calls (`Server`), makes
//! class loads too (`Loader`), into the same buffer with rubbish, and drawings (`Drawer`), into bytes
//! of rubbish.

use crate::callers::{Named, Server};
use crate::compare::Side;
use crate::drawing::Drawer;
use crate::load::{Load, Loader};
use crate::plain::Outcome;
use crate::plain::dot::Drawn;
use crate::plain::sheet::{SHEET_WORDS, WORKSPACE_WORDS};
use crate::random::Random;

#[repr(C)]
#[derive(Debug, Clone, Copy, PartialEq, Eq)]
struct Caller {
    next: u32,
}

#[repr(C)]
#[derive(Debug, Clone, Copy, PartialEq, Eq)]
struct Reply {
    refusal: u32,
    serial: u32,
    length: usize,
}

unsafe extern "C" {
    fn service_new() -> Caller;
    fn service_least_workspace() -> usize;
    fn service_most_sheet() -> usize;
    fn service_infer(
        callers: *mut Caller,
        count: usize,
        position: usize,
        sheet: *const u32,
        sheet_len: usize,
        workspace: *mut u32,
        workspace_len: usize,
        answer: *mut u32,
        answer_len: usize,
    ) -> Reply;
    fn service_load(seed: u32, n: u32, m: u32, sheet: *mut u32, sheet_len: usize) -> Reply;
    fn service_load_for(
        callers: *const Caller,
        count: usize,
        position: usize,
        seed: u32,
        n: u32,
        m: u32,
        sheet: *mut u32,
        sheet_len: usize,
    ) -> Reply;
    fn service_dot(
        sheet: *const u32,
        sheet_len: usize,
        workspace: *mut u32,
        workspace_len: usize,
        text: *mut u8,
        text_len: usize,
    ) -> Reply;
}

/// Words, or bytes, around a lent buffer that no call may change.
const AROUND: usize = 16;

/// How many words of rubbish there are, and how many bytes.
const RUBBISH: usize = 1 << 16;

/// A buffer of words or bytes that is lent again and again.
struct Buffer<T> {
    rubbish: Vec<T>,
    /// Where in the rubbish the words begin that were there before the call.
    from: usize,
    words: Vec<T>,
    length: usize,
}

impl<T: Copy + PartialEq + Into<u32>> Buffer<T> {
    fn new(rubbish: impl FnMut(usize) -> T) -> Buffer<T> {
        let rubbish = (0..RUBBISH).map(rubbish).collect();
        Buffer { rubbish, from: 0, words: Vec::new(), length: 0 }
    }

    /// Rubbish everywhere, from a position of the list of rubbish on.
    fn fill(&mut self, length: usize, from: usize) {
        let all = length + 2 * AROUND;
        self.from = from;
        self.length = length;
        self.words.clear();
        while self.words.len() < all {
            let at = (from + self.words.len()) % RUBBISH;
            let end = RUBBISH.min(at + all - self.words.len());
            self.words.extend_from_slice(&self.rubbish[at..end]);
        }
    }

    fn lent(&self) -> &[T] {
        &self.words[AROUND..AROUND + self.length]
    }

    fn lend(&mut self) -> &mut [T] {
        &mut self.words[AROUND..AROUND + self.length]
    }

    /// Whether what stands around the lent words is as it was filled, and so many of them are all
    /// that are not 0.
    fn check(&self, name: &str, length: usize) -> Result<(), String> {
        let after = AROUND + self.length;
        if (0..AROUND)
            .chain(after..after + AROUND)
            .any(|at| self.words[at] != self.rubbish[(self.from + at) % RUBBISH])
        {
            return Err(format!("something around the {name} was written"));
        }
        let behind = &self.lent()[length..];
        if behind.iter().fold(0, |all, &word| all | word.into()) == 0 {
            return Ok(());
        }
        let at = behind.iter().position(|&word| word.into() != 0).unwrap_or(0);
        let found: u32 = behind[at].into();
        Err(format!("the {name} has {found} at {}, of {}", length + at, self.length))
    }

    /// What a call has left here, or the number of its refusal.
    fn result(&self, name: &str, reply: Reply) -> Result<Result<Vec<T>, u32>, String> {
        let Reply { refusal, length, .. } = reply;
        if self.length < length || (refusal != 0 && length != 0) {
            return Err(format!("{reply:?}"));
        }
        self.check(name, length)?;
        Ok(if refusal == 0 { Ok(self.lent()[..length].to_vec()) } else { Err(refusal) })
    }
}

fn outcome_of(result: Result<Vec<u32>, u32>) -> Outcome {
    match result {
        Ok(words) => Outcome::Accepted(words),
        Err(refusal) => Outcome::Refused(refusal),
    }
}

/// The first serials of the callers: the first wraps soon, and the others do not.
const FIRST: [u32; 5] = [u32::MAX - 9, 0, 7, u32::MAX / 2, 4_000_000_000];

pub struct Ours {
    /// The callers' next serials as the library leaves them, and as they are counted here.
    callers: Vec<u32>,
    counted: Vec<u32>,
    /// Which callers are named.
    random: Random,
    records: Buffer<u32>,
    sheet: Vec<u32>,
    workspace: Buffer<u32>,
    answer: Buffer<u32>,
    text: Buffer<u8>,
    calls: usize,
}

impl Default for Ours {
    fn default() -> Ours {
        let mut random = Random::new(0);
        // SAFETY: they take nothing.
        let (caller, workspace, sheet) =
            unsafe { (service_new(), service_least_workspace(), service_most_sheet()) };
        assert_eq!(caller, Caller { next: 0 }, "a new record");
        assert_eq!((workspace, sheet), (WORKSPACE_WORDS, SHEET_WORDS), "the lengths");
        Ours {
            callers: FIRST.to_vec(),
            counted: FIRST.to_vec(),
            random: Random::new(9),
            records: Buffer::new(|_| random.word() as u32),
            sheet: Vec::new(),
            workspace: Buffer::new(|_| random.word() as u32),
            answer: Buffer::new(|_| random.word() as u32),
            // A byte that is 0 before would not show that it was left.
            text: Buffer::new(|_| random.between(1, 255) as u8),
            calls: 0,
        }
    }
}

impl Ours {
    /// Where the rubbish of the next call begins.
    fn next(&mut self) -> usize {
        self.calls += 1;
        self.calls * 977 % RUBBISH
    }

    /// A copy of the sheet, and rubbish in the workspace; where the rubbish of the call begins.
    fn begin(&mut self, sheet: &[u32], workspace: usize) -> usize {
        let from = self.next();
        self.sheet.clear();
        self.sheet.extend_from_slice(sheet);
        self.workspace.fill(workspace, from);
        from
    }

    /// After a call the sheet is unchanged, and the workspace is 0.
    fn end(&self, sheet: &[u32]) -> Result<(), String> {
        if self.sheet != sheet {
            return Err("the sheet was written".into());
        }
        self.workspace.check("workspace", 0)
    }

    /// Lends records with these next serials, rubbish around them.
    fn lend_records(&mut self, callers: &[u32], from: usize) {
        self.records.fill(callers.len(), from / 3);
        self.records.lend().copy_from_slice(callers);
    }

    /// The records' next serials after a call, which has left what stands around them.
    fn records_after(&self) -> Result<&[u32], String> {
        self.records.check("records", self.records.length)?;
        Ok(self.records.lent())
    }
}

/// For a call that takes no serial.
fn no_serial(reply: Reply) -> Result<(), String> {
    if reply.serial == 0 { Ok(()) } else { Err(format!("{reply:?}")) }
}

impl Side for Ours {
    fn name(&self) -> &'static str {
        "ours"
    }

    fn outcome(
        &mut self,
        sheet: &[u32],
        workspace_len: usize,
        answer_len: usize,
    ) -> Result<Outcome, String> {
        let position = self.random.below(FIRST.len());
        let mut callers = std::mem::take(&mut self.callers);
        let told = self.turn(&mut callers, position, sheet, workspace_len, answer_len);
        self.callers = callers;
        let (outcome, serial) = told?;
        let expected = match outcome {
            Outcome::Accepted(_) => {
                let next = &mut self.counted[position];
                let serial = *next;
                *next = next.wrapping_add(1);
                Some(serial)
            }
            Outcome::Refused(_) => None,
        };
        if serial != expected || self.callers != self.counted {
            let (records, counted) = (&self.callers, &self.counted);
            return Err(format!(
                "caller {position}: serial {serial:?} and {records:?}, not {expected:?} and {counted:?}"
            ));
        }
        Ok(outcome)
    }

    fn outside(
        &mut self,
        sheet: &[u32],
        workspace_len: usize,
        answer_len: usize,
    ) -> Option<Result<Outcome, String>> {
        // Not all records, or none, are lent to some; those behind have to stay too.
        let lent = self.random.below(FIRST.len() + 1);
        let (before, behind) = self.callers.split_at(lent);
        let (mut callers, behind) = (before.to_vec(), behind.to_vec());
        let past = [lent, lent + 1, FIRST.len(), 1 << 32, usize::MAX / 4 + 2, usize::MAX];
        let position = self.random.choose(&past);
        let told = self.turn(&mut callers, position, sheet, workspace_len, answer_len);
        self.callers = [callers, behind].concat();
        Some(told.and_then(|(outcome, serial)| {
            if serial.is_some() || self.callers != self.counted {
                return Err(format!(
                    "position {position} of {lent}: {serial:?}, {:?}",
                    self.callers
                ));
            }
            Ok(outcome)
        }))
    }
}

impl Server for Ours {
    fn name(&self) -> &'static str {
        "ours, several callers"
    }

    fn turn(
        &mut self,
        callers: &mut [u32],
        position: usize,
        sheet: &[u32],
        workspace_len: usize,
        answer_len: usize,
    ) -> Result<(Outcome, Option<u32>), String> {
        let from = self.begin(sheet, workspace_len);
        self.answer.fill(answer_len, from / 2);
        self.lend_records(callers, from);
        let (workspace, answer) = (self.workspace.lend(), self.answer.lend());
        let records = self.records.lend();
        // SAFETY: the pointers are those of slices with these lengths, all different; a record is a word.
        let reply = unsafe {
            service_infer(
                records.as_mut_ptr().cast(),
                records.len(),
                position,
                self.sheet.as_ptr(),
                self.sheet.len(),
                workspace.as_mut_ptr(),
                workspace.len(),
                answer.as_mut_ptr(),
                answer.len(),
            )
        };
        self.end(sheet)?;
        callers.copy_from_slice(self.records_after()?);
        let outcome = outcome_of(self.answer.result("answer buffer", reply)?);
        if reply.refusal == 0 {
            return Ok((outcome, Some(reply.serial)));
        }
        no_serial(reply)?;
        Ok((outcome, None))
    }
}

impl Loader for Ours {
    fn name(&self) -> &'static str {
        "ours, a class load"
    }

    fn load(&mut self, load: Load, named: Option<Named>, room: usize) -> Result<Outcome, String> {
        let from = self.next();
        self.answer.fill(room, from);
        let callers: Vec<u32> = (0..named.map_or(0, |named| named.callers as u32)).collect();
        self.lend_records(&callers, from);
        let (Load { seed, n, m }, sheet) = (load, self.answer.lend());
        // SAFETY: the pointers are those of slices with these lengths; a record is a word.
        let reply = match named {
            None => unsafe { service_load(seed, n, m, sheet.as_mut_ptr(), sheet.len()) },
            Some(Named { callers, position }) => unsafe {
                let records = self.records.lend().as_ptr().cast();
                let (sheet, words) = (sheet.as_mut_ptr(), sheet.len());
                service_load_for(records, callers, position, seed, n, m, sheet, words)
            },
        };
        no_serial(reply)?;
        if self.records_after()? != callers {
            return Err("a class load has written a record".into());
        }
        Ok(outcome_of(self.answer.result("output", reply)?))
    }
}

impl Drawer for Ours {
    fn name(&self) -> &'static str {
        "ours, a drawing"
    }

    fn draw(&mut self, sheet: &[u32], workspace: usize, room: usize) -> Result<Drawn, String> {
        let from = self.begin(sheet, workspace);
        self.text.fill(room, from / 2);
        let (workspace, text) = (self.workspace.lend(), self.text.lend());
        // SAFETY: the pointers are those of slices with these lengths, all different.
        let reply = unsafe {
            service_dot(
                self.sheet.as_ptr(),
                self.sheet.len(),
                workspace.as_mut_ptr(),
                workspace.len(),
                text.as_mut_ptr(),
                text.len(),
            )
        };
        self.end(sheet)?;
        no_serial(reply)?;
        Ok(match self.text.result("text", reply)? {
            Ok(text) => Drawn::Text(text),
            Err(refusal) => Drawn::Refused(refusal),
        })
    }
}
