//! Style sheets written into the `style` attributes of a page, as mail is prepared.
//!
//! ```
//! use simplecss::modern::inline::{inline, InlineOptions};
//!
//! let page = "<!DOCTYPE html><html><head><title>x</title></head><body><p class=\"a\">y</p></body></html>";
//! let found = inline(page, &[".a { color: red } p:hover { color: blue }", "p { margin: 0 }"], &InlineOptions::default()).unwrap();
//! assert!(found.contains("<p class=\"a\" style=\"margin: 0\">"));
//! assert!(found.contains(".a { color: red }\np:hover { color: blue }"));
//! ```
use crate::erased::css_inline::inlining;
use crate::rattle_std::alloc::Global;
use crate::within;
use alloc::string::String;
use alloc::vec::Vec;

pub use crate::erased::css_inline::inlining::InlineError;

/// How a page is written.
#[derive(Clone, Copy, Debug)]
pub struct InlineOptions {
    /// Whether the `style` elements of the page stay as they are.
    pub keep_style: bool,
    /// How many declarations and bytes are looked at and written at most.
    pub limit: usize,
}

impl Default for InlineOptions {
    fn default() -> Self {
        InlineOptions { keep_style: false, limit: 10_000_000 }
    }
}

/// Returns a page in HTML with style sheets in its `style` attributes: those that are given, and then those of its own
/// `style` elements.
///
/// A declaration is written unless a rule that stays may say something else of the same family of properties on
/// that element: then all of that family stays for it. What depends on a state of the page or on a condition stays in
/// a `style` element. The result is the page with edits of `style` attributes and `style` elements, and is read as the
/// same tree.
pub fn inline(page: &str, sheets: &[&str], options: &InlineOptions) -> Result<String, InlineError> {
    let sheets: Vec<&str> = sheets.iter().map(|sheet| within(sheet)).collect();
    let options = inlining::Options { keep_style: options.keep_style, limit: options.limit };
    let mark = if page.starts_with('\u{feff}') { '\u{feff}'.len_utf8() } else { 0 };
    let found = inlining::inline(Global, within(&page[mark..]), &sheets, &options)?;
    let mut text = String::from(&page[..mark]);
    text.push_str(core::str::from_utf8(&found.0).map_err(|_| InlineError::Misplaced)?);
    Ok(text)
}
