//! Ordered maps and sets. Rust's cannot report an allocation that fails.
use super::alloc::{AllocError, Global};
use alloc::collections::{btree_map, BTreeMap as Map, BTreeSet as Set};
use core::borrow::Borrow;

#[derive(Debug)]
pub struct BTreeMap<K, V>(pub Map<K, V>);

impl<K: Ord, V> BTreeMap<K, V> {
    pub fn new(_: Global) -> Self {
        BTreeMap(Map::new())
    }

    pub fn insert(&mut self, key: K, value: V) -> Result<Option<V>, AllocError> {
        Ok(self.0.insert(key, value))
    }

    pub fn get<Q: Ord + ?Sized>(&self, key: &Q) -> Option<&V>
    where
        K: Borrow<Q>,
    {
        self.0.get(key)
    }

    pub fn entry(&mut self, key: K) -> Result<Entry<'_, K, V>, AllocError> {
        Ok(Entry(self.0.entry(key)))
    }

    pub fn is_empty(&self) -> bool {
        self.0.is_empty()
    }

    pub fn len(&self) -> usize {
        self.0.len()
    }
}

pub struct Entry<'m, K, V>(btree_map::Entry<'m, K, V>);

impl<'m, K: Ord, V: Default> Entry<'m, K, V> {
    pub fn or_default(self) -> &'m mut V {
        self.0.or_default()
    }
}

impl<'a, K, V> IntoIterator for &'a BTreeMap<K, V> {
    type Item = (&'a K, &'a V);
    type IntoIter = btree_map::Iter<'a, K, V>;

    fn into_iter(self) -> Self::IntoIter {
        self.0.iter()
    }
}

#[derive(Debug)]
pub struct BTreeSet<K>(Set<K>);

impl<K: Ord> BTreeSet<K> {
    pub fn new(_: Global) -> Self {
        BTreeSet(Set::new())
    }

    pub fn insert(&mut self, key: K) -> Result<bool, AllocError> {
        Ok(self.0.insert(key))
    }

    pub fn contains<Q: Ord + ?Sized>(&self, key: &Q) -> bool
    where
        K: Borrow<Q>,
    {
        self.0.contains(key)
    }
}
