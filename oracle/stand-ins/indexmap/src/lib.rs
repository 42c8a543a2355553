//! Stand-in for `indexmap`: a vector of entries in insertion order and a table
//! of their positions, open addressing with linear probing.

use std::hash::{BuildHasher, Hash, RandomState};
use std::ops::Index;

const EMPTY: u32 = u32::MAX;

#[derive(Debug, Clone)]
struct Bucket<K, V> {
    hash: u64,
    key: K,
    value: V,
}

#[derive(Debug, Clone)]
pub struct IndexMap<K, V, S = RandomState> {
    entries: Vec<Bucket<K, V>>,
    /// Empty, or a power of two above the number of entries.
    table: Vec<u32>,
    hasher: S,
}

pub type IndexSet<T, S = RandomState> = IndexMap<T, (), S>;

impl<K, V, S: Default> Default for IndexMap<K, V, S> {
    fn default() -> Self {
        IndexMap { entries: Vec::new(), table: Vec::new(), hasher: S::default() }
    }
}

impl<K, V, S> IndexMap<K, V, S> {
    pub fn iter(&self) -> Iter<'_, K, V> {
        Iter { inner: self.entries.iter() }
    }

    pub fn keys(&self) -> impl Iterator<Item = &K> {
        self.entries.iter().map(|b| &b.key)
    }

    pub fn values(&self) -> impl Iterator<Item = &V> {
        self.entries.iter().map(|b| &b.value)
    }

    pub fn values_mut(&mut self) -> impl Iterator<Item = &mut V> {
        self.entries.iter_mut().map(|b| &mut b.value)
    }
}

impl<K: Hash + Eq, V, S: BuildHasher> IndexMap<K, V, S> {
    /// The slot of the key, or the empty slot where it would go.
    #[inline]
    fn slot(&self, hash: u64, key: &K) -> usize {
        let mask = self.table.len() - 1;
        let mut at = hash as usize & mask;
        loop {
            let position = self.table[at];
            if position == EMPTY {
                return at;
            }
            let bucket = &self.entries[position as usize];
            if bucket.hash == hash && bucket.key == *key {
                return at;
            }
            at = (at + 1) & mask;
        }
    }

    fn grow(&mut self) {
        let size = (self.table.len() * 2).max(4);
        self.table.clear();
        self.table.resize(size, EMPTY);
        let mask = size - 1;
        for (position, bucket) in self.entries.iter().enumerate() {
            let mut at = bucket.hash as usize & mask;
            while self.table[at] != EMPTY {
                at = (at + 1) & mask;
            }
            self.table[at] = position as u32;
        }
    }

    pub fn get_index_of(&self, key: &K) -> Option<usize> {
        if self.entries.is_empty() {
            return None;
        }
        let position = self.table[self.slot(self.hasher.hash_one(key), key)];
        (position != EMPTY).then_some(position as usize)
    }

    pub fn get(&self, key: &K) -> Option<&V> {
        self.get_index_of(key).map(|i| &self.entries[i].value)
    }

    pub fn get_mut(&mut self, key: &K) -> Option<&mut V> {
        self.get_index_of(key).map(|i| &mut self.entries[i].value)
    }

    pub fn entry(&mut self, key: K) -> Entry<'_, K, V, S> {
        let hash = self.hasher.hash_one(&key);
        // At most three quarters of the table are taken.
        if self.entries.len() * 4 >= self.table.len() * 3 {
            self.grow();
        }
        let slot = self.slot(hash, &key);
        Entry { map: self, hash, slot, key }
    }

    pub fn insert(&mut self, key: K, value: V) -> Option<V> {
        if let Some(i) = self.get_index_of(&key) {
            return Some(std::mem::replace(&mut self.entries[i].value, value));
        }
        self.entry(key).or_insert(value);
        None
    }
}

pub struct Entry<'m, K, V, S> {
    map: &'m mut IndexMap<K, V, S>,
    hash: u64,
    slot: usize,
    key: K,
}

impl<'m, K, V, S> Entry<'m, K, V, S> {
    pub fn or_insert(self, value: V) -> &'m mut V {
        let mut position = self.map.table[self.slot] as usize;
        if position == EMPTY as usize {
            position = self.map.entries.len();
            self.map.table[self.slot] = position as u32;
            self.map.entries.push(Bucket { hash: self.hash, key: self.key, value });
        }
        &mut self.map.entries[position].value
    }
}

impl<K: Hash + Eq, V, S: BuildHasher> Index<&K> for IndexMap<K, V, S> {
    type Output = V;
    fn index(&self, key: &K) -> &V {
        self.get(key).expect("key is present")
    }
}

pub struct Iter<'m, K, V> {
    inner: std::slice::Iter<'m, Bucket<K, V>>,
}

impl<'m, K, V> Iterator for Iter<'m, K, V> {
    type Item = (&'m K, &'m V);
    #[inline]
    fn next(&mut self) -> Option<Self::Item> {
        self.inner.next().map(|b| (&b.key, &b.value))
    }
    fn size_hint(&self) -> (usize, Option<usize>) {
        self.inner.size_hint()
    }
}

impl<K, V> ExactSizeIterator for Iter<'_, K, V> {}

impl<'m, K, V, S> IntoIterator for &'m IndexMap<K, V, S> {
    type Item = (&'m K, &'m V);
    type IntoIter = Iter<'m, K, V>;
    fn into_iter(self) -> Iter<'m, K, V> {
        self.iter()
    }
}
