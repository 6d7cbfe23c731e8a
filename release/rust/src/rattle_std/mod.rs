//! The names of Rattle's `std` that the erased sources use, over Rust's `core` and `alloc`.
//!
//! An allocation that fails is an `Err` where Rust's `alloc` can say so, and aborts where it cannot: in
//! maps and in sorting.
pub use core::{cell, cmp, convert, iter, mem, ops, option, ptr, result, slice, str};

pub mod borrow;
pub mod boxed;
pub mod collections;
pub mod fmt;
pub mod io;
pub mod options;
pub mod slices;
pub mod string;
pub mod vec;

/// What every source has without an import.
pub mod prelude {
    pub use super::boxed::Box;
    pub use super::options::IsSomeAnd;
    pub use super::slices::{FirstChunk, TrimAscii};
    pub use super::string::{Joined, Lowercase, String, ToString};
    pub use super::vec::Vec;
    pub use core::prelude::rust_2021::*;
}

/// Traits of proofs, which say nothing of what runs.
pub mod marker {
    pub use core::marker::*;

    /// A type that contracts see as another.
    pub trait Model {}
}

/// The allocator, and what is reported where it fails.
pub mod alloc {
    /// The allocator of Rust's `alloc`.
    #[derive(Clone, Copy, Debug, Default, PartialEq)]
    pub struct Global;

    /// What allocates: the allocator of Rust's `alloc` alone.
    pub trait Allocator {}

    impl Allocator for Global {}

    /// An allocation failed.
    #[derive(Clone, Copy, Debug, PartialEq)]
    pub struct AllocError;

    impl core::fmt::Display for AllocError {
        fn fmt(&self, f: &mut core::fmt::Formatter<'_>) -> core::fmt::Result {
            f.write_str("memory allocation failed")
        }
    }

    impl super::error::Error for AllocError {}

    /// An allocation failed, and with it what was to be stored.
    #[derive(Debug)]
    pub struct AllocFailed<T>(pub T);

    impl<T> From<AllocFailed<T>> for AllocError {
        fn from(_: AllocFailed<T>) -> AllocError {
            AllocError
        }
    }
}

pub mod error {
    #[cfg(not(feature = "std"))]
    pub use core::error::Error;
    #[cfg(feature = "std")]
    pub use std::error::Error;
}

/// Values of proofs, which take no room.
pub mod snapshot {
    use core::marker::PhantomData;

    #[derive(Debug, PartialEq)]
    pub struct Snapshot<T>(PhantomData<T>);

    impl<T> Snapshot<T> {
        pub fn of(_: &T) -> Self {
            Snapshot(PhantomData)
        }
    }

    impl<T> Clone for Snapshot<T> {
        fn clone(&self) -> Self {
            *self
        }
    }

    impl<T> Copy for Snapshot<T> {}
}
