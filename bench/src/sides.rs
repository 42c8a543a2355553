//! One call of each side, and its time.

use oracle::original_side;
use oracle::plain::{self, sheet::Sheet};
use oxc_allocator::Allocator;
use service_host::ffi::{self, Caller, Reply};

use crate::clock::time;

/// Our library with the buffers that are lent for each call.
pub struct Ours {
    caller: [Caller; 1],
    workspace: Vec<u32>,
    answer: Vec<u32>,
    lent: usize,
}

impl Ours {
    pub fn new() -> Ours {
        Ours {
            caller: [ffi::new_caller()],
            workspace: vec![0; ffi::least_workspace()],
            answer: Vec::new(),
            lent: 0,
        }
    }

    /// Lends so many words for answers from now on.
    pub fn lend(&mut self, words: usize) {
        self.lent = words;
        self.answer.resize(words.max(self.answer.len()), 0);
    }

    pub fn call(&mut self, sheet: &[u32]) -> Reply {
        let answer = &mut self.answer[..self.lent];
        ffi::infer(&mut self.caller, 0, sheet, &mut self.workspace, answer)
    }

    pub fn answer(&self, reply: Reply) -> &[u32] {
        &self.answer[..reply.length]
    }
}

impl Default for Ours {
    fn default() -> Ours {
        Ours::new()
    }
}

const ACCEPTED: &str = "the sheets of the benchmark are accepted";

/// The original's same job: the sheet's words read, its HIR built, the pass, the answer's words.
pub fn same_job(words: &[u32]) -> Vec<u32> {
    let sheet = plain::read(words).expect(ACCEPTED);
    original_side::answer(&sheet).expect(ACCEPTED).answer.words()
}

/// The time of the original's pass alone, with its HIR built before.
pub fn analysis(sheet: &Sheet) -> f64 {
    let allocator = Allocator::new();
    let mut prepared = original_side::prepare(sheet, &allocator);
    time(|| original_side::call(&mut prepared)).0
}

/// Fails if the two sides disagree on what both have: all but the walks.
pub fn compare(ours: &mut Ours, words: &[u32]) {
    let reply = ours.call(words);
    assert_eq!(reply.refusal, 0);
    let sheet = plain::read(words).expect(ACCEPTED);
    let original = original_side::answer(&sheet).expect(ACCEPTED);
    let original = original.filled(&plain::answer(&sheet)).words();
    assert_eq!(ours.answer(reply), original, "the two sides disagree");
}
