//! The C library of `simplecss` (`include/simplecss.h`), over sources that are proved and then erased to
//! Rust. Unlike the library that the toolchain makes, it may abort where an allocation fails.
#![allow(clippy::all, dead_code, unused_imports, unused_labels, unused_macros, unused_variables)]
// Older versions of Rust have some methods of `rattle_std` that are not stable there.
#![allow(unstable_name_collisions)]
// The names of the library `log` are shared with the crate of Rust, which has a feature of this name.
#![allow(unknown_lints, unexpected_cfgs)]

#[cfg(not(any(target_pointer_width = "64", all(target_pointer_width = "32", feature = "bits32"))))]
compile_error!("the sources are proved for targets of 64 bits; for 32 there is the feature `bits32`");

extern crate alloc;

mod erased;
mod rattle_log;
mod rattle_std;
mod raw;

/// Returns a text that is read. Those that callers pass are measured by `read`.
#[inline(always)]
pub(crate) fn within(text: &str) -> &str {
    text
}

/// Returns the items at a pointer, which may be null if there are none. On a target of 32 bits these are at
/// most 2^28 bytes.
///
/// # Safety
///
/// As many items as `len` says are there, and nobody changes them while they are used.
unsafe fn read<'a, T>(items: *const T, len: usize) -> &'a [T] {
    if len == 0 {
        return &[];
    }
    #[cfg(target_pointer_width = "32")]
    assert!(len <= (1 << 28) / core::mem::size_of::<T>(), "more than 2^28 bytes, on a target of 32 bits");
    unsafe { core::slice::from_raw_parts(items, len) }
}

/// Returns the items at a pointer, which may be null if there are none.
///
/// # Safety
///
/// As many items as `len` says are there, and nobody else uses them meanwhile.
unsafe fn filled<'a, T>(items: *mut T, len: usize) -> &'a mut [T] {
    if len == 0 {
        return &mut [];
    }
    unsafe { core::slice::from_raw_parts_mut(items, len) }
}

/// Says that this library was compiled from the erased sources: the one that the toolchain makes has no
/// function of this name.
#[no_mangle]
pub extern "C" fn simplecss_is_erased() -> u32 {
    1
}

/// What a program on WebAssembly calls to pass texts and take answers: it has no allocator of its own.
#[cfg(target_family = "wasm")]
mod memory {
    use alloc::vec::Vec;
    use std::cell::RefCell;

    thread_local! {
        static TAKEN: RefCell<Vec<Vec<u64>>> = RefCell::new(Vec::new());
    }

    /// Takes room for as many bytes. Null if there is none.
    #[no_mangle]
    extern "C" fn simplecss_take(len: usize) -> *mut u64 {
        let mut room = Vec::new();
        if room.try_reserve_exact(len / 8 + 1).is_err() {
            return core::ptr::null_mut();
        }
        let start = room.as_mut_ptr();
        TAKEN.with(|taken| taken.borrow_mut().push(room));
        start
    }

    /// Frees all that was taken.
    #[no_mangle]
    extern "C" fn simplecss_reset() {
        TAKEN.with(|taken| taken.borrow_mut().clear());
    }
}
