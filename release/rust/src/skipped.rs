//! What reading a style sheet skips, and where, and what it keeps that is hardly meant.
//!
//! ```
//! use simplecss::skipped::{find_skipped, Place};
//!
//! let text = "a { x: y }\nb < c { x: y }\n@media print { a { x: y } }";
//! let mut place = Place::START;
//! let mut lines = Vec::new();
//! for part in find_skipped(text) {
//!     place = place.find(text, part.from);
//!     lines.push(format!("{}: {part}", place.pos));
//! }
//! assert_eq!(lines[1], "3:1: '@media print': at-rule not supported");
//! ```
use crate::done;
use crate::rattle_std::alloc::Global;
use alloc::vec::Vec;

pub use crate::erased::simplecss::{Hint, HintKind, Place, Refusal, Skipped, Why};

/// Returns all that reading the text skips, in order.
pub fn find_skipped(text: &str) -> Vec<Skipped<'_>> {
    done(crate::erased::simplecss::find_skipped(Global, text)).0
}

/// Returns what is kept of the text and hardly meant, in order.
pub fn find_hints(text: &str) -> Vec<Hint<'_>> {
    done(crate::erased::simplecss::find_hints(Global, text)).0
}
