//! Properties by their names: shorthands, what is inherited, and values with `var()` (CSS Custom
//! Properties for Cascading Variables 1).
//!
//! ```
//! use simplecss::properties::{is_inherited, longhands, registrations, resolve, shorthands, Property, LONGEST};
//!
//! assert_eq!(longhands("gap").collect::<Vec<_>>(), ["row-gap", "column-gap"]);
//! assert_eq!(shorthands("margin-left"), ["all", "margin"]);
//! assert!(is_inherited("color") && is_inherited("--x") && !is_inherited("margin"));
//!
//! let own = [
//!     Property { name: "color", text: "var(--main, red)" },
//!     Property { name: "--a", text: "var(--b)" },
//!     Property { name: "--b", text: "var(--a)" },
//! ];
//! let handed = [Property { name: "--main", text: "blue" }];
//! let values = resolve(&[], &own, &handed, LONGEST);
//! assert_eq!(values, [Some("blue".to_string()), None, None]);
//!
//! let rule = Property { name: "--main", text: "syntax: '*'; inherits: false; initial-value: green" };
//! let values = resolve(&registrations(&[rule]), &own[..1], &handed, LONGEST);
//! assert_eq!(values, [Some("green".to_string())]);
//! ```
use crate::erased::css_values as proved;
use crate::rattle_std::alloc::Global;
use crate::{done, within};
use alloc::string::String;
use alloc::vec::Vec;

pub use proved::{Property, Registration};

/// How many bytes of a value with its references replaced are usual as a limit.
pub const LONGEST: usize = 1 << 20;

/// Returns the registrations that `@property` rules are, each of which is what is before its block and what is
/// in it, from the last. A rule that is invalid is none.
pub fn registrations<'a>(rules: &[Property<'a>]) -> Vec<Registration<'a>> {
    checked(rules);
    done(proved::read_registrations(Global, rules)).0
}

/// Returns the computed values of the properties that an element declares, of which an invalid one has none.
/// Each `var()` is replaced by the value of the first property of its name, or else by its fallback. One that
/// is not declared has the value that is handed down, or its initial value, as the first registration of its
/// name says. Properties that lead to one another in a circle are invalid, as is a value of more bytes than
/// `limit`; a registered one whose syntax is not `*` has then what it has undeclared.
pub fn resolve(
    registered: &[Registration<'_>],
    own: &[Property<'_>],
    handed: &[Property<'_>],
    limit: usize,
) -> Vec<Option<String>> {
    checked(own);
    checked(handed);
    let values = done(proved::resolve(Global, limit, registered, own, handed));
    values.0.into_iter().map(|value| value.map(|value| value.text.0)).collect()
}

/// Checks that texts are not too long.
fn checked(properties: &[Property<'_>]) {
    for property in properties {
        within(property.name);
        within(property.text);
    }
}

/// Whether each `var()` of a value names a custom property, and has nothing but the name and a fallback.
/// A declaration of another value is invalid.
pub fn is_valid_value(value: &str) -> bool {
    done(proved::is_valid(Global, within(value)))
}

/// Returns the longhands that a shorthand sets. A longhand has none. A name is in lower case.
pub fn longhands(name: &str) -> impl Iterator<Item = &'static str> {
    proved::longhands_in(proved::SHORTHANDS, within(name)).unwrap_or("").split_terminator(' ')
}

/// Returns the shorthands that set a longhand. A name is in lower case.
pub fn shorthands(name: &str) -> Vec<&'static str> {
    done(proved::shorthands_in(Global, proved::SHORTHANDS, within(name))).0
}

/// Whether parents hand down a property: each custom property, and a shorthand if they hand down all its
/// longhands. A name is in lower case, but for a custom property.
pub fn is_inherited(name: &str) -> bool {
    name.starts_with("--") || proved::is_named_in(proved::INHERITED, within(name))
}
