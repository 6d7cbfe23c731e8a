//! Texts of CSS that are asked what wins.
use super::Own;
use crate::erased::css_lint::{refused_in_attribute, refused_in_sheet, Finding};
use crate::rattle_std::alloc::Global;
use crate::{done, within};
use alloc::borrow::Cow;
use alloc::string::String;
use core::ops::Deref;

/// A text of which it is said which values may win: those that browsers take, or any.
///
/// ```
/// use simplecss::modern::{Document, Options, Sheet, Text};
/// use simplecss::tree::Tree;
///
/// let mut tree = Tree::new();
/// let list = tree.push(None, "ul").unwrap();
/// let mut document = Document::new(&tree);
/// let mut position = |text: &Text<'_>| {
///     let sheet = Sheet::parse(text, &Options::default()).unwrap();
///     let mut styles = document.styles(&sheet, 1_000_000).unwrap();
///     styles.style(list, (), "position").unwrap().declaration.value.to_string()
/// };
/// let text = "ul { position: sticky; position: -webkit-sticky }";
/// assert_eq!(position(&Text::sheet(text)), "sticky");
/// assert_eq!(position(&Text::any_value(text)), "-webkit-sticky");
/// ```
#[derive(Clone, Debug, PartialEq, Eq)]
pub struct Text<'t>(Cow<'t, str>);

impl<'t> Text<'t> {
    /// A style sheet as browsers read it: with as many spaces in place of each declaration whose value no browser takes, as far
    /// as that is known. Of other properties than [`takes_value`](super::takes_value) knows nothing is known, nor of most
    /// values with a function.
    ///
    /// ```
    /// use simplecss::modern::Text;
    ///
    /// assert_eq!(&*Text::sheet("a { top: 0; top: x; left: 1px }"), "a { top: 0;       ; left: 1px }");
    /// assert_eq!(&*Text::sheet("a { width: calc(1px); --b: x }"), "a { width: calc(1px); --b: x }");
    /// ```
    pub fn sheet(text: &'t str) -> Self {
        Text(without(text, &done(refused_in_sheet(Global, within(text), false))))
    }

    /// A `style` attribute as browsers read it, as [`Text::sheet`] is.
    pub fn style(text: &'t str) -> Self {
        Text(without(text, &done(refused_in_attribute(Global, within(text), false))))
    }

    /// A style sheet as browsers read it on pages in quirks mode
    /// ([`Page::is_quirky`](super::html::Page::is_quirky)), where some properties take numbers as lengths and colours.
    ///
    /// ```
    /// use simplecss::modern::Text;
    ///
    /// let text = "a { width: 3; color: abc; gap: 3 }";
    /// assert_eq!(&*Text::sheet(text), "a {         ;           ;        }");
    /// assert_eq!(&*Text::quirky_sheet(text), "a { width: 3; color: abc;        }");
    /// ```
    pub fn quirky_sheet(text: &'t str) -> Self {
        Text(without(text, &done(refused_in_sheet(Global, within(text), true))))
    }

    /// A `style` attribute as browsers read it on pages in quirks mode, as [`Text::quirky_sheet`] is, and on any page of an element
    /// that is not in HTML, as one of SVG.
    pub fn quirky_style(text: &'t str) -> Self {
        Text(without(text, &done(refused_in_attribute(Global, within(text), true))))
    }

    /// A style sheet or a `style` attribute as it is: with any value.
    pub fn any_value(text: &'t str) -> Self {
        Text(Cow::Borrowed(text))
    }
}

impl Deref for Text<'_> {
    type Target = str;

    fn deref(&self) -> &str {
        &self.0
    }
}

/// The declarations of a `style` attribute, with no presentation declarations.
impl<'a> From<&'a Text<'_>> for Own<'a> {
    fn from(style: &'a Text<'_>) -> Self {
        Own { style, presentation: "" }
    }
}

/// No declarations.
impl From<()> for Own<'_> {
    fn from(_: ()) -> Self {
        Own { style: "", presentation: "" }
    }
}

/// Returns a text with as many spaces in place of each of these parts.
fn without<'t>(text: &'t str, found: &[Finding]) -> Cow<'t, str> {
    if found.is_empty() {
        return Cow::Borrowed(text);
    }
    let (mut kept, mut end) = (String::with_capacity(text.len()), 0);
    for each in found {
        kept.push_str(&text[end..each.start]);
        kept.extend(core::iter::repeat(' ').take(each.end - each.start));
        end = each.end;
    }
    kept.push_str(&text[end..]);
    Cow::Owned(kept)
}
