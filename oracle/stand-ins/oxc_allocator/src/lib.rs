//! Stand-in for `oxc_allocator`: a bump allocator and its vector. As in the real
//! one, items are never dropped and the memory goes back all at once.

use std::alloc::Layout;
use std::cell::{Cell, RefCell};
use std::fmt;
use std::ops::{Deref, DerefMut};
use std::ptr::NonNull;

const CHUNK: usize = 1 << 16;

#[derive(Default)]
pub struct Allocator {
    chunks: RefCell<std::vec::Vec<(NonNull<u8>, Layout)>>,
    at: Cell<usize>,
    end: Cell<usize>,
}

impl Allocator {
    pub fn new() -> Self {
        Self::default()
    }

    #[inline]
    fn alloc(&self, layout: Layout) -> NonNull<u8> {
        let start = (self.at.get() + layout.align() - 1) & !(layout.align() - 1);
        if self.at.get() != 0 && start + layout.size() <= self.end.get() {
            self.at.set(start + layout.size());
            return NonNull::new(start as *mut u8).expect("chunks are not at 0");
        }
        self.alloc_chunk(layout)
    }

    #[cold]
    fn alloc_chunk(&self, layout: Layout) -> NonNull<u8> {
        let size = CHUNK.max(layout.size());
        let chunk = Layout::from_size_align(size, 16.max(layout.align())).expect("size is small");
        let start = NonNull::new(unsafe { std::alloc::alloc(chunk) }).expect("memory is left");
        self.chunks.borrow_mut().push((start, chunk));
        self.at.set(start.as_ptr() as usize + layout.size());
        self.end.set(start.as_ptr() as usize + size);
        start
    }
}

impl Drop for Allocator {
    fn drop(&mut self) {
        for (start, layout) in self.chunks.get_mut().drain(..) {
            unsafe { std::alloc::dealloc(start.as_ptr(), layout) };
        }
    }
}

#[derive(Debug, Clone, Copy, PartialEq, Eq)]
pub enum CloneInSemanticIds {
    Without,
    With,
}

pub trait CloneIn<'new_alloc>: Sized {
    type Cloned;

    fn clone_in(&self, allocator: &'new_alloc Allocator) -> Self::Cloned {
        self.clone_in_impl(CloneInSemanticIds::Without, allocator)
    }

    fn clone_in_impl(
        &self,
        semantic_ids: CloneInSemanticIds,
        allocator: &'new_alloc Allocator,
    ) -> Self::Cloned;
}

/// Vector in an arena.
pub struct Vec<'a, T> {
    start: NonNull<T>,
    len: usize,
    capacity: usize,
    allocator: &'a Allocator,
}

impl<'a, T> Vec<'a, T> {
    pub fn new_in(allocator: &'a Allocator) -> Self {
        Vec { start: NonNull::dangling(), len: 0, capacity: 0, allocator }
    }

    pub fn with_capacity_in(capacity: usize, allocator: &'a Allocator) -> Self {
        let mut new = Self::new_in(allocator);
        new.reserve_to(capacity);
        new
    }

    pub fn from_iter_in<I: IntoIterator<Item = T>>(items: I, allocator: &'a Allocator) -> Self {
        let items = items.into_iter();
        let mut new = Self::with_capacity_in(items.size_hint().0, allocator);
        for item in items {
            new.push(item);
        }
        new
    }

    fn reserve_to(&mut self, capacity: usize) {
        if capacity <= self.capacity || size_of::<T>() == 0 {
            return;
        }
        let layout = Layout::array::<T>(capacity).expect("size is small");
        let start = self.allocator.alloc(layout).cast::<T>();
        // The old items move; their place is not used again.
        unsafe { std::ptr::copy_nonoverlapping(self.start.as_ptr(), start.as_ptr(), self.len) };
        self.start = start;
        self.capacity = capacity;
    }

    #[inline]
    pub fn push(&mut self, item: T) {
        if self.len >= self.capacity {
            self.reserve_to((self.capacity * 2).max(4));
        }
        unsafe { self.start.as_ptr().add(self.len).write(item) };
        self.len += 1;
    }
}

impl<T> Deref for Vec<'_, T> {
    type Target = [T];
    #[inline]
    fn deref(&self) -> &[T] {
        unsafe { std::slice::from_raw_parts(self.start.as_ptr(), self.len) }
    }
}

impl<T> DerefMut for Vec<'_, T> {
    #[inline]
    fn deref_mut(&mut self) -> &mut [T] {
        unsafe { std::slice::from_raw_parts_mut(self.start.as_ptr(), self.len) }
    }
}

impl<T: fmt::Debug> fmt::Debug for Vec<'_, T> {
    fn fmt(&self, f: &mut fmt::Formatter<'_>) -> fmt::Result {
        f.debug_list().entries(self.iter()).finish()
    }
}

impl<'m, T> IntoIterator for &'m Vec<'_, T> {
    type Item = &'m T;
    type IntoIter = std::slice::Iter<'m, T>;
    fn into_iter(self) -> Self::IntoIter {
        self.iter()
    }
}

impl<'m, T> IntoIterator for &'m mut Vec<'_, T> {
    type Item = &'m mut T;
    type IntoIter = std::slice::IterMut<'m, T>;
    fn into_iter(self) -> Self::IntoIter {
        self.iter_mut()
    }
}

impl<'new_alloc, T: CloneIn<'new_alloc>> CloneIn<'new_alloc> for Vec<'_, T> {
    type Cloned = Vec<'new_alloc, T::Cloned>;
    fn clone_in_impl(
        &self,
        semantic_ids: CloneInSemanticIds,
        allocator: &'new_alloc Allocator,
    ) -> Self::Cloned {
        Vec::from_iter_in(
            self.iter().map(|item| item.clone_in_impl(semantic_ids, allocator)),
            allocator,
        )
    }
}
