//! Edits of a style sheet by places: every other byte stays, and what would be read as something else is refused.
//!
//! ```
//! use simplecss::modern::edit::{edited, place_of, Change, Edit, Refusal};
//! use simplecss::modern::{Sheet, Text};
//!
//! let sheet = "/* brand */ a, b { color: red }";
//! let edits = [
//!     Edit { change: Change::Prelude, from: 12, to: 16, text: ".x a, .x b" },
//!     Edit { change: Change::Value, from: 26, to: 29, text: "blue" },
//! ];
//! assert_eq!(edited(sheet, &edits).unwrap(), "/* brand */ .x a, .x b { color: blue }");
//! let wrong = [Edit { text: "blue; } b {", ..edits[1] }];
//! assert_eq!(edited(sheet, &wrong), Err(Refusal::Differs(0)));
//!
//! let text = Text::sheet(sheet);
//! let read = Sheet::parse(&text, &Default::default()).unwrap();
//! let selector = read.rules().next().unwrap().text();
//! assert_eq!(place_of(&text, selector), Some(12..13));
//! ```
use crate::erased::css_edits;
use crate::rattle_std::alloc::Global;
use crate::within;
use alloc::string::String;
use core::ops::Range;

pub use crate::erased::css_edits::edits::{Change, Edit, Refusal};

/// Returns a style sheet with edits, which are in order of their places. It is read again: it says what it said, with
/// what the edits say in their places.
pub fn edited(sheet: &str, edits: &[Edit<'_>]) -> Result<String, Refusal> {
    css_edits::editing::edited(Global, within(sheet), edits).map(|text| text.0)
}

/// Returns where a part of a text is in it, such as a selector, a name or a value that was read of it.
pub fn place_of(text: &str, part: &str) -> Option<Range<usize>> {
    let start = (part.as_ptr() as usize).checked_sub(text.as_ptr() as usize)?;
    let end = start.checked_add(part.len())?;
    (end <= text.len()).then_some(start..end)
}
