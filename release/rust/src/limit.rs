//! Style sheets from untrusted sources, whose rules may take memory quadratic in their length.
//!
//! ```
//! use simplecss::{limit::{parse_within, TooManyDeclarations}, StyleSheet};
//!
//! let mut sheet = StyleSheet::new();
//! assert_eq!(parse_within(&mut sheet, "a, b { x: y; z: w }", 3), Err(TooManyDeclarations));
//! assert_eq!(parse_within(&mut sheet, "a, b { x: y }", 3), Ok(()));
//! assert_eq!(sheet.rules.len(), 2);
//! ```
use crate::erased::simplecss::{Reading, SheetError, Silent};
use crate::rattle_std::alloc::Global;
use crate::StyleSheet;
use core::fmt;

/// The rules of the text would hold more declarations than the limit.
#[derive(Clone, Copy, Debug, PartialEq)]
pub struct TooManyDeclarations;

impl fmt::Display for TooManyDeclarations {
    fn fmt(&self, f: &mut fmt::Formatter<'_>) -> fmt::Result {
        f.write_str("too many declarations")
    }
}

impl crate::rattle_std::error::Error for TooManyDeclarations {}

/// Parses a text into the sheet as [`StyleSheet::parse_more`] does, unless its rules would hold more than
/// `most` declarations: then the sheet is unchanged. A rule set counts its declarations once for each of
/// its selectors, and is refused before they are stored.
pub fn parse_within<'a>(
    sheet: &mut StyleSheet<'a>,
    text: &'a str,
    most: usize,
) -> Result<(), TooManyDeclarations> {
    let mut all = sheet.take_proved();
    let how = Reading {
        report: &mut Silent,
        most,
    };
    let outcome = all.read(how, Global, &[text]);
    sheet.put_back(all);
    match outcome {
        Ok(()) => Ok(()),
        Err(SheetError::TooManyDeclarations) => Err(TooManyDeclarations),
        Err(SheetError::Memory) => panic!("memory allocation failed"),
    }
}
