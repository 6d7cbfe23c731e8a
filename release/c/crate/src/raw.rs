//! A box as a pointer, which the crate of Rust, without `unsafe`, does not have.
use crate::rattle_std::alloc::Allocator;
use crate::rattle_std::boxed::Box;
use alloc::boxed;

impl<T, A: Allocator> Box<T, A> {
    #[inline]
    pub fn into_raw_with_allocator(whole: Self) -> (*mut T, A) {
        (boxed::Box::into_raw(whole.one) as *mut T, whole.alloc)
    }

    /// # Safety
    ///
    /// The pointer is of `into_raw_with_allocator`, and makes one box.
    #[inline]
    pub unsafe fn from_raw(alloc: A, at: *mut T) -> Self {
        let one = unsafe { boxed::Box::from_raw(at as *mut [T; 1]) };
        Box { one, alloc }
    }
}
