//! Style sheets and style attributes from people whom nobody knows, made safe by a policy.
//!
//! ```
//! use simplecss::modern::clean::{clean_sheet, clean_style, is_clean_sheet, mail, Reason};
//!
//! let policy = mail(".mail");
//! let kept = clean_style(policy.declarations, "color: red; position: fixed; width: expression(1)");
//! assert_eq!(kept.text, "color: red;");
//! assert_eq!(kept.dropped[0].reason, Reason::Property);
//! assert_eq!(kept.dropped[0].start..kept.dropped[0].end, 12..27);
//!
//! let kept = clean_sheet(policy, "p, a:hover { color: red } @import 'x'; body::before { content: url(y) }");
//! assert_eq!(kept.text, ".mail p, .mail a:hover {color: red;}\n");
//! assert!(is_clean_sheet(policy, &kept.text));
//! ```
//!
//! A url is kept if it is answered, with what is written in its place. So ask [`urls`] first:
//!
//! ```
//! use simplecss::modern::clean::{clean_style, mail, urls, Changes, Policy};
//!
//! let text = "background: url(a.png); background: url(b.png)";
//! assert_eq!(urls(text), ["a.png", "b.png"]);
//! let mail = mail("").declarations;
//! let changes = Changes { urls: &["a.png"], answers: &["/proxy?a.png"], ..mail.changes };
//! let policy = Policy { functions: &["url"], changes, ..mail };
//! assert_eq!(clean_style(policy, text).text, "background: url(\"/proxy?a.png\");");
//! ```
//!
//! A limit is two numbers and words. A value may have nothing but such words and numbers between these:
//!
//! ```
//! use simplecss::modern::clean::{clean_style, mail, Limits, Policy, Reason};
//!
//! let mail = mail("").declarations;
//! let limits = Limits { properties: &["position", "margin"], limits: &["static, relative", "0, 96 auto"] };
//! let policy = Policy { properties: &["position", "margin"], limits, ..mail };
//! let kept = clean_style(policy, "position: relative; position: fixed; margin: 1in auto; margin: -1px");
//! assert_eq!(kept.text, "position: relative; margin: 1in auto;");
//! assert_eq!(kept.dropped[0].reason, Reason::Beyond);
//! ```
use crate::erased::clean_values;
use crate::erased::css_clean::{self, lists};
use crate::rattle_std::alloc::Global;
use crate::{done, within};
use alloc::string::String;
use alloc::vec::Vec;

pub use crate::erased::clean_values::changes::Changes;
pub use crate::erased::clean_values::limits::Limits;
pub use crate::erased::css_clean::{Dropped, Policy, Reason, SheetPolicy};

/// What is kept of a text, and what is dropped, in order, a rule after its declarations.
#[derive(Clone, Debug, PartialEq)]
pub struct Cleaned {
    /// The text that is kept.
    pub text: String,
    /// The pieces that are dropped.
    pub dropped: Vec<Dropped>,
}

impl Cleaned {
    fn new(found: css_clean::Cleaned) -> Self {
        Cleaned { text: found.text.0, dropped: found.dropped.0 }
    }
}

/// Returns a policy for the bodies of mails, within the elements that a scope matches.
pub fn mail(scope: &str) -> SheetPolicy<'_> {
    lists::mail(scope)
}

/// Returns a policy for comments, within the elements that a scope matches.
pub fn comment(scope: &str) -> SheetPolicy<'_> {
    lists::comment(scope)
}

/// Returns the urls of a text, in order: those without quotes, and strings that follow `url(`, `src(`, `image(`,
/// `image-set(` or `-webkit-image-set(` in a declaration.
pub fn urls(text: &str) -> Vec<String> {
    let found = done(clean_values::urls::urls(Global, within(text))).0;
    found.split_terminator('\0').map(String::from).collect()
}

/// Returns what the policy allows of a style attribute: the declarations that are allowed.
pub fn clean_style(policy: Policy<'_>, text: &str) -> Cleaned {
    Cleaned::new(done(css_clean::clean_style(Global, policy, within(text))))
}

/// Returns what the policy allows of a style sheet, under its scope.
pub fn clean_sheet(policy: SheetPolicy<'_>, text: &str) -> Cleaned {
    Cleaned::new(done(css_clean::clean_sheet(Global, policy, within(text))))
}

/// Whether a style attribute is one that the policy allows, as it is.
pub fn is_clean_style(policy: Policy<'_>, text: &str) -> bool {
    css_clean::is_clean_style(policy, within(text))
}

/// Whether a style sheet is one that the policy allows under its scope, as it is.
pub fn is_clean_sheet(policy: SheetPolicy<'_>, text: &str) -> bool {
    done(css_clean::is_clean_sheet(Global, policy, within(text)))
}
