//! A value on the heap, which reports an allocation that fails.
use super::alloc::{AllocFailed, Allocator, Global};
use alloc::{boxed, vec};
use core::ops::{Deref, DerefMut};

#[derive(Debug)]
pub struct Box<T, A: Allocator = Global> {
    /// The value, as the one item that `Vec` reserves room for.
    pub one: boxed::Box<[T; 1]>,
    pub alloc: A,
}

impl<T, A: Allocator> Deref for Box<T, A> {
    type Target = T;

    #[inline]
    fn deref(&self) -> &T {
        let [value] = &*self.one;
        value
    }
}

impl<T, A: Allocator> DerefMut for Box<T, A> {
    #[inline]
    fn deref_mut(&mut self) -> &mut T {
        let [value] = &mut *self.one;
        value
    }
}

impl<T, A: Allocator> Box<T, A> {
    pub fn new(alloc: A, value: T) -> Result<Self, AllocFailed<T>> {
        let mut one = vec::Vec::new();
        if one.try_reserve_exact(1).is_err() {
            return Err(AllocFailed(value));
        }
        one.push(value);
        match one.into_boxed_slice().try_into() {
            Ok(one) => Ok(Box { one, alloc }),
            Err(_) => unreachable!(),
        }
    }
}
