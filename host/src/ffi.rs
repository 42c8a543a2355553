//! The library's functions as they are. They hold no memory and no records of their own: every
//! word that they read or write is lent for the call.

use std::mem::{align_of, offset_of, size_of};

/// A caller's record: its next serial. A host keeps it from call to call; 0 when new.
#[repr(C)]
#[derive(Debug, Clone, Copy, PartialEq, Eq)]
pub struct Caller {
    /// The serial that the caller's next accepted call takes.
    pub next: u32,
}

/// What a call says.
#[repr(C)]
#[derive(Debug, Clone, Copy, PartialEq, Eq)]
pub struct Reply {
    /// The refusal's number, or 0.
    pub refusal: u32,
    /// The serial of an accepted call, else 0; a class load and a drawing have none.
    pub serial: u32,
    /// How many words the answer, or the class load, has, from the first word of its buffer on; how
    /// many bytes a drawing has.
    pub length: usize,
}

// The same as in include/service.h.
const _: () = {
    assert!(size_of::<Caller>() == 4 && align_of::<Caller>() == 4);
    assert!(offset_of!(Caller, next) == 0);
    assert!(size_of::<Reply>() == 16 && align_of::<Reply>() == 8);
    assert!(offset_of!(Reply, refusal) == 0);
    assert!(offset_of!(Reply, serial) == 4);
    assert!(offset_of!(Reply, length) == 8);
};

unsafe extern "C" {
    fn service_infer(
        callers: *mut Caller,
        count: usize,
        position: usize,
        sheet: *const u32,
        sheet_words: usize,
        workspace: *mut u32,
        workspace_words: usize,
        answer: *mut u32,
        answer_words: usize,
    ) -> Reply;
    fn service_load(
        seed: u32,
        identifiers: u32,
        effects: u32,
        sheet: *mut u32,
        sheet_words: usize,
    ) -> Reply;
    fn service_load_for(
        callers: *const Caller,
        count: usize,
        position: usize,
        seed: u32,
        identifiers: u32,
        effects: u32,
        sheet: *mut u32,
        sheet_words: usize,
    ) -> Reply;
    fn service_dot(
        sheet: *const u32,
        sheet_words: usize,
        workspace: *mut u32,
        workspace_words: usize,
        text: *mut u8,
        text_bytes: usize,
    ) -> Reply;
    safe fn service_new() -> Caller;
    safe fn service_least_workspace() -> usize;
    safe fn service_most_sheet() -> usize;
}

/// One call on lent buffers, for the caller whose record is at a position. After it the whole workspace
/// is 0, and so is the answer buffer from `length` on; that record has moved by one if the call was
/// accepted, and every other one is as it was. A position outside the records is refused 11.
pub fn infer(
    callers: &mut [Caller],
    position: usize,
    sheet: &[u32],
    workspace: &mut [u32],
    answer: &mut [u32],
) -> Reply {
    // SAFETY: each pointer is that of a live slice with the length beside it; those that are
    // written are borrowed mutably, so that no two overlap. The function asks nothing more.
    unsafe {
        service_infer(
            callers.as_mut_ptr(),
            callers.len(),
            position,
            sheet.as_ptr(),
            sheet.len(),
            workspace.as_mut_ptr(),
            workspace.len(),
            answer.as_mut_ptr(),
            answer.len(),
        )
    }
}

/// A class load into a lent buffer. After it the buffer is 0 from `length` on.
pub fn load(seed: u32, identifiers: u32, effects: u32, sheet: &mut [u32]) -> Reply {
    // SAFETY: the pointer is that of a live slice with the length beside it, borrowed mutably. The
    // function asks nothing more.
    unsafe { service_load(seed, identifiers, effects, sheet.as_mut_ptr(), sheet.len()) }
}

/// A class load for the caller whose record is at a position: refused 11 where that is outside the
/// records, before anything else.
pub fn load_for(
    callers: &[Caller],
    position: usize,
    seed: u32,
    identifiers: u32,
    effects: u32,
    sheet: &mut [u32],
) -> Reply {
    // SAFETY: each pointer is that of a live slice with the length beside it; the one that is written
    // is borrowed mutably, so that the two do not overlap. The function asks nothing more.
    unsafe {
        service_load_for(
            callers.as_ptr(),
            callers.len(),
            position,
            seed,
            identifiers,
            effects,
            sheet.as_mut_ptr(),
            sheet.len(),
        )
    }
}

/// A drawing into a lent buffer of bytes. After it the whole workspace is 0, and so is the buffer from
/// `length` on.
pub fn dot(sheet: &[u32], workspace: &mut [u32], text: &mut [u8]) -> Reply {
    // SAFETY: each pointer is that of a live slice with the length beside it; those that are
    // written are borrowed mutably, so that no two overlap. The function asks nothing more.
    unsafe {
        service_dot(
            sheet.as_ptr(),
            sheet.len(),
            workspace.as_mut_ptr(),
            workspace.len(),
            text.as_mut_ptr(),
            text.len(),
        )
    }
}

/// A new record.
pub fn new_caller() -> Caller {
    service_new()
}

/// How many words a workspace has at least; with fewer a call is refused 1.
pub fn least_workspace() -> usize {
    service_least_workspace()
}

/// How many words a sheet has at most; with more a call is refused 2.
pub fn most_sheet() -> usize {
    service_most_sheet()
}
