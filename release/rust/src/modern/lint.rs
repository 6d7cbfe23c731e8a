//! Mistakes in style sheets.
use crate::erased::css_lint::{self, lint_attribute, lint_sheet, Finding as Found, Known};
use crate::rattle_std::alloc::Global;
use crate::{done, within};
use alloc::string::String;
use alloc::vec::Vec;
use core::ops::Range;

/// What corrects a mistake.
#[derive(Clone, Debug, PartialEq, Eq)]
pub struct Edit {
    /// The bytes in whose place it is written.
    pub range: Range<usize>,
    /// What is written.
    pub text: String,
}

/// A mistake in a style sheet.
#[derive(Clone, Debug, PartialEq, Eq)]
pub struct Finding {
    /// The kind, such as `unknown property`.
    pub kind: &'static str,
    /// What the kind means.
    pub meaning: &'static str,
    /// How bad it is: `error` where browsers leave something out, `warning` where something does nothing or probably not
    /// what was meant, `note` where it may be meant.
    pub severity: &'static str,
    /// The bytes of the text that it is about.
    pub range: Range<usize>,
    /// What was probably meant.
    pub hint: Option<String>,
    /// What corrects it, if one answer is right.
    pub edit: Option<Edit>,
}

impl Finding {
    fn new(found: &Found) -> Self {
        let about = found.kind.about();
        let written = |text: crate::erased::css_lint::Meant| [text.sign, text.name].concat();
        Finding {
            kind: found.kind.words(),
            meaning: about.text,
            severity: about.severity.word(),
            range: found.start..found.end,
            hint: found.meant.map(written),
            edit: found.edit.map(|edit| Edit { range: edit.start..edit.end, text: written(edit.text) }),
        }
    }
}

fn findings(found: &[Found]) -> Vec<Finding> {
    let mut all: Vec<Finding> = found.iter().map(Finding::new).collect();
    all.sort_by_key(|each| each.range.start);
    all
}

/// Returns the mistakes of a style sheet, in order.
///
/// ```
/// let found = simplecss::modern::lint("a { colr: red }");
/// assert_eq!((found[0].kind, found[0].range.clone()), ("unknown property", 4..8));
/// assert_eq!(found[0].hint.as_deref(), Some("color"));
/// ```
pub fn lint(text: &str) -> Vec<Finding> {
    findings(&done(lint_sheet(Global, within(text), false)))
}

/// Returns the mistakes of a `style` attribute, in order.
pub fn lint_style(text: &str) -> Vec<Finding> {
    findings(&done(lint_attribute(Global, within(text), false)))
}

/// Whether a property takes a value, which has no `!important`: `true` if the standards and browsers take it, and
/// `false` if none of them does. `None` is what is not known: of other properties, of a value with a function, a
/// bracket or a vendor's prefix.
///
/// ```
/// use simplecss::modern::takes_value;
///
/// let takes = |value| takes_value("float", value);
/// assert_eq!([takes("left"), takes("middle"), takes("calc(1px)")], [Some(true), Some(false), None]);
/// ```
pub fn takes_value(property: &str, value: &str) -> Option<bool> {
    match done(css_lint::takes_value(Global, within(property), within(value))) {
        Known::Valid => Some(true),
        Known::Invalid => Some(false),
        Known::Unknown => None,
    }
}
