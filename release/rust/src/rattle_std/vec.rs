//! A vector whose calls report an allocation that fails.
use super::alloc::{AllocError, AllocFailed, Global};
use alloc::vec;
use core::cmp::Ordering;
use core::ops::{Deref, DerefMut, RangeBounds};

#[derive(Debug, Default, PartialEq)]
pub struct Vec<T>(pub vec::Vec<T>);

impl<T> Deref for Vec<T> {
    type Target = [T];

    #[inline]
    fn deref(&self) -> &[T] {
        &self.0
    }
}

impl<T> DerefMut for Vec<T> {
    #[inline]
    fn deref_mut(&mut self) -> &mut [T] {
        &mut self.0
    }
}

impl<T> Vec<T> {
    #[inline]
    pub const fn new(_: Global) -> Self {
        Vec(vec::Vec::new())
    }

    #[inline]
    pub fn with_capacity(_: Global, n: usize) -> Result<Self, AllocError> {
        let mut items = vec::Vec::new();
        items.try_reserve_exact(n).map_err(|_| AllocError)?;
        Ok(Vec(items))
    }

    #[inline]
    pub fn push(&mut self, item: T) -> Result<(), AllocFailed<T>> {
        if self.0.len() == self.0.capacity() && self.0.try_reserve(1).is_err() {
            return Err(AllocFailed(item));
        }
        self.0.push(item);
        Ok(())
    }

    #[inline]
    pub fn reserve(&mut self, n: usize) -> Result<(), AllocError> {
        self.0.try_reserve(n).map_err(|_| AllocError)
    }

    #[inline]
    pub fn reserve_exact(&mut self, n: usize) -> Result<(), AllocError> {
        self.0.try_reserve_exact(n).map_err(|_| AllocError)
    }

    #[inline]
    pub fn shrink_to_fit(&mut self) {
        self.0.shrink_to_fit();
    }

    pub fn append(&mut self, other: &mut Self) -> Result<(), AllocError> {
        self.reserve(other.len())?;
        self.0.append(&mut other.0);
        Ok(())
    }

    pub fn insert(&mut self, index: usize, item: T) -> Result<(), AllocError> {
        self.reserve(1)?;
        self.0.insert(index, item);
        Ok(())
    }

    #[inline]
    pub fn remove(&mut self, index: usize) -> T {
        self.0.remove(index)
    }

    #[inline]
    pub fn as_slice(&self) -> &[T] {
        &self.0
    }

    #[inline]
    pub fn as_mut_slice(&mut self) -> &mut [T] {
        &mut self.0
    }

    #[inline]
    pub fn split_off(&mut self, at: usize) -> Result<Vec<T>, AllocError> {
        let mut after = vec::Vec::new();
        after.try_reserve_exact(self.0.len() - at).map_err(|_| AllocError)?;
        after.extend(self.0.drain(at..));
        Ok(Vec(after))
    }

    #[inline]
    pub fn truncate(&mut self, n: usize) {
        self.0.truncate(n);
    }

    #[inline]
    pub fn clear(&mut self) {
        self.0.clear();
    }

    #[inline]
    pub fn pop(&mut self) -> Option<T> {
        self.0.pop()
    }

    pub fn resize(&mut self, n: usize, item: T) -> Result<(), AllocError>
    where
        T: Clone,
    {
        self.reserve(n.saturating_sub(self.0.len()))?;
        self.0.resize(n, item);
        Ok(())
    }

    pub fn retain<F: FnMut(&T) -> bool>(&mut self, keeps: F) {
        self.0.retain(keeps);
    }

    pub fn allocator(&self) -> &Global {
        &Global
    }

    #[inline]
    pub fn capacity(&self) -> usize {
        self.0.capacity()
    }

    pub fn from_elem(_: Global, item: T, n: usize) -> Result<Self, AllocError>
    where
        T: Clone,
    {
        let mut items = Self::with_capacity(Global, n)?;
        items.0.resize(n, item);
        Ok(items)
    }

    pub fn sort_by<F: FnMut(&T, &T) -> Ordering>(&mut self, compare: F) -> Result<(), AllocError> {
        self.0.sort_by(compare);
        Ok(())
    }

    pub fn sort_by_cached_key<K: Ord, F: FnMut(&T) -> K>(
        &mut self,
        key: F,
    ) -> Result<(), AllocError> {
        self.0.sort_by_cached_key(key);
        Ok(())
    }

    pub fn extend_from_slice(&mut self, other: &[T]) -> Result<(), AllocError>
    where
        T: Clone,
    {
        self.reserve(other.len())?;
        self.0.extend_from_slice(other);
        Ok(())
    }

    pub fn from_slice(_: Global, items: &[T]) -> Result<Self, AllocError>
    where
        T: Clone,
    {
        let mut copy = Self::with_capacity(Global, items.len())?;
        copy.0.extend_from_slice(items);
        Ok(copy)
    }

    pub fn drain<R: RangeBounds<usize>>(&mut self, range: R) -> vec::Drain<'_, T> {
        self.0.drain(range)
    }

    pub fn dedup(&mut self)
    where
        T: PartialEq,
    {
        self.0.dedup();
    }
}

impl<T> IntoIterator for Vec<T> {
    type Item = T;
    type IntoIter = vec::IntoIter<T>;

    fn into_iter(self) -> Self::IntoIter {
        self.0.into_iter()
    }
}

impl<'a, T> IntoIterator for &'a Vec<T> {
    type Item = &'a T;
    type IntoIter = core::slice::Iter<'a, T>;

    fn into_iter(self) -> Self::IntoIter {
        self.0.iter()
    }
}

impl<'a, T> IntoIterator for &'a mut Vec<T> {
    type Item = &'a mut T;
    type IntoIter = core::slice::IterMut<'a, T>;

    fn into_iter(self) -> Self::IntoIter {
        self.0.iter_mut()
    }
}

impl<T: Clone> Vec<T> {
    pub fn repeated(alloc: Global, item: T, n: usize) -> Result<Self, AllocError> {
        let mut items = Vec::with_capacity(alloc, n)?;
        items.0.resize(n, item);
        Ok(items)
    }
}

#[allow(unused_macros)]
macro_rules! vec_in {
    ($alloc:expr; $item:expr; $n:expr) => {
        $crate::rattle_std::vec::Vec::repeated($alloc, $item, $n)
    };
}
#[allow(unused_imports)]
pub(crate) use vec_in;
