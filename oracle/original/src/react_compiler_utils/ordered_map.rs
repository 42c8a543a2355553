//! Stand-in for the maps of blocks and of phi operands: both iterate in
//! insertion order. In the arena a map is a vector of pairs.

use std::fmt;

use oxc_allocator::{Allocator, CloneIn, CloneInSemanticIds, Vec as ArenaVec};

use super::FxIndexMap;

pub type OrderedMap<K, V> = FxIndexMap<K, V>;

#[derive(Debug)]
pub struct Pair<K, V>(K, V);

impl<'a, K: Copy, V: CloneIn<'a>> CloneIn<'a> for Pair<K, V> {
    type Cloned = Pair<K, V::Cloned>;
    fn clone_in_impl(&self, sem: CloneInSemanticIds, alloc: &'a Allocator) -> Self::Cloned {
        Pair(self.0, self.1.clone_in_impl(sem, alloc))
    }
}

#[derive(Debug)]
pub struct ArenaOrderedMap<'a, K, V> {
    pairs: ArenaVec<'a, Pair<K, V>>,
}

impl<'a, K: Eq, V> ArenaOrderedMap<'a, K, V> {
    pub fn new_in(allocator: &'a Allocator) -> Self {
        ArenaOrderedMap { pairs: ArenaVec::new_in(allocator) }
    }

    pub fn insert(&mut self, key: K, value: V) {
        match self.pairs.iter_mut().find(|p| p.0 == key) {
            Some(pair) => pair.1 = value,
            None => self.pairs.push(Pair(key, value)),
        }
    }
}

impl<'a, K, V> ArenaOrderedMap<'a, K, V> {
    pub fn iter(&self) -> Iter<'_, K, V> {
        Iter { inner: self.pairs.iter() }
    }
    pub fn values(&self) -> impl Iterator<Item = &V> {
        self.pairs.iter().map(|p| &p.1)
    }
    pub fn values_mut(&mut self) -> impl Iterator<Item = &mut V> {
        self.pairs.iter_mut().map(|p| &mut p.1)
    }
}

pub struct Iter<'m, K, V> {
    inner: std::slice::Iter<'m, Pair<K, V>>,
}

impl<'m, K, V> Iterator for Iter<'m, K, V> {
    type Item = (&'m K, &'m V);
    fn next(&mut self) -> Option<Self::Item> {
        self.inner.next().map(|p| (&p.0, &p.1))
    }
}

impl<'m, K, V> IntoIterator for &'m ArenaOrderedMap<'_, K, V> {
    type Item = (&'m K, &'m V);
    type IntoIter = Iter<'m, K, V>;
    fn into_iter(self) -> Iter<'m, K, V> {
        self.iter()
    }
}

impl<'a, K: Copy, V: CloneIn<'a>> CloneIn<'a> for ArenaOrderedMap<'_, K, V> {
    type Cloned = ArenaOrderedMap<'a, K, V::Cloned>;
    fn clone_in_impl(&self, sem: CloneInSemanticIds, alloc: &'a Allocator) -> Self::Cloned {
        ArenaOrderedMap { pairs: self.pairs.clone_in_impl(sem, alloc) }
    }
}

/// The pass does not look at predecessors' sets.
pub struct ArenaOrderedSet<'a, T> {
    items: ArenaVec<'a, T>,
}

impl<'a, T> ArenaOrderedSet<'a, T> {
    pub fn new_in(allocator: &'a Allocator) -> Self {
        ArenaOrderedSet { items: ArenaVec::new_in(allocator) }
    }
}

impl<T: fmt::Debug> fmt::Debug for ArenaOrderedSet<'_, T> {
    fn fmt(&self, f: &mut fmt::Formatter<'_>) -> fmt::Result {
        self.items.fmt(f)
    }
}

impl<'a, T: CloneIn<'a>> CloneIn<'a> for ArenaOrderedSet<'_, T> {
    type Cloned = ArenaOrderedSet<'a, T::Cloned>;
    fn clone_in_impl(&self, sem: CloneInSemanticIds, alloc: &'a Allocator) -> Self::Cloned {
        ArenaOrderedSet { items: self.items.clone_in_impl(sem, alloc) }
    }
}
