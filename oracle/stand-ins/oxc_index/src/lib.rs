//! Stand-in for `oxc_index`: typed numbers and vectors indexed by them.

use std::fmt;
use std::marker::PhantomData;
use std::num::NonZeroU32;
use std::ops::{Deref, DerefMut, Index, IndexMut};

/// Every value but `u32::MAX`; stored inverted, so that `Option` needs no room.
#[derive(Clone, Copy, PartialEq, Eq, Hash)]
pub struct NonMaxU32(NonZeroU32);

impl NonMaxU32 {
    pub const fn new(value: u32) -> Option<Self> {
        match NonZeroU32::new(value ^ u32::MAX) {
            Some(v) => Some(NonMaxU32(v)),
            None => None,
        }
    }

    #[inline]
    pub const fn get(self) -> u32 {
        self.0.get() ^ u32::MAX
    }
}

impl fmt::Debug for NonMaxU32 {
    fn fmt(&self, f: &mut fmt::Formatter<'_>) -> fmt::Result {
        self.get().fmt(f)
    }
}

pub trait Idx: Copy {
    fn from_usize(index: usize) -> Self;
    fn index(self) -> usize;
}

#[macro_export]
macro_rules! define_nonmax_u32_index_type {
    ($(#[$attr:meta])* $vis:vis struct $name:ident;) => {
        $(#[$attr])*
        #[derive(Debug, Clone, Copy, PartialEq, Eq, Hash)]
        $vis struct $name($crate::NonMaxU32);

        impl $name {
            pub const MAX_INDEX: usize = u32::MAX as usize - 1;

            #[inline]
            pub const fn from_usize(index: usize) -> Self {
                assert!(index <= Self::MAX_INDEX);
                match $crate::NonMaxU32::new(index as u32) {
                    Some(v) => $name(v),
                    None => panic!("index is too large"),
                }
            }

            #[inline]
            pub const fn index(self) -> usize {
                self.0.get() as usize
            }
        }

        impl $crate::Idx for $name {
            #[inline]
            fn from_usize(index: usize) -> Self {
                $name::from_usize(index)
            }
            #[inline]
            fn index(self) -> usize {
                $name::index(self)
            }
        }

        impl PartialOrd for $name {
            #[inline]
            fn partial_cmp(&self, other: &Self) -> Option<std::cmp::Ordering> {
                Some(self.cmp(other))
            }
        }

        impl Ord for $name {
            #[inline]
            fn cmp(&self, other: &Self) -> std::cmp::Ordering {
                self.index().cmp(&other.index())
            }
        }

        impl std::ops::Add<usize> for $name {
            type Output = $name;
            #[inline]
            fn add(self, more: usize) -> $name {
                $name::from_usize(self.index() + more)
            }
        }
    };
}

#[repr(transparent)]
pub struct IndexSlice<I, T: ?Sized> {
    _marker: PhantomData<fn(&I)>,
    raw: T,
}

impl<I: Idx, T> Index<I> for IndexSlice<I, [T]> {
    type Output = T;
    #[inline]
    fn index(&self, index: I) -> &T {
        &self.raw[index.index()]
    }
}

impl<I: Idx, T> IndexMut<I> for IndexSlice<I, [T]> {
    #[inline]
    fn index_mut(&mut self, index: I) -> &mut T {
        &mut self.raw[index.index()]
    }
}

impl<I, T> IndexSlice<I, [T]> {
    pub fn iter(&self) -> std::slice::Iter<'_, T> {
        self.raw.iter()
    }
}

pub struct IndexVec<I, T> {
    _marker: PhantomData<fn(&I)>,
    raw: Vec<T>,
}

impl<I: Idx, T> IndexVec<I, T> {
    pub fn new() -> Self {
        IndexVec { _marker: PhantomData, raw: Vec::new() }
    }

    pub fn push(&mut self, item: T) -> I {
        self.raw.push(item);
        I::from_usize(self.raw.len() - 1)
    }
}

impl<I: Idx, T> Default for IndexVec<I, T> {
    fn default() -> Self {
        Self::new()
    }
}

impl<I, T> Deref for IndexVec<I, T> {
    type Target = IndexSlice<I, [T]>;
    #[inline]
    fn deref(&self) -> &IndexSlice<I, [T]> {
        // The slice type is transparent over `[T]`.
        unsafe { &*(self.raw.as_slice() as *const [T] as *const IndexSlice<I, [T]>) }
    }
}

impl<I, T> DerefMut for IndexVec<I, T> {
    #[inline]
    fn deref_mut(&mut self) -> &mut IndexSlice<I, [T]> {
        // The slice type is transparent over `[T]`.
        unsafe { &mut *(self.raw.as_mut_slice() as *mut [T] as *mut IndexSlice<I, [T]>) }
    }
}

impl<I: Idx, T> Index<I> for IndexVec<I, T> {
    type Output = T;
    #[inline]
    fn index(&self, index: I) -> &T {
        &self.raw[index.index()]
    }
}

impl<I: Idx, T> IndexMut<I> for IndexVec<I, T> {
    #[inline]
    fn index_mut(&mut self, index: I) -> &mut T {
        &mut self.raw[index.index()]
    }
}
