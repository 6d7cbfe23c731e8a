//! A simple [CSS 2.1](https://www.w3.org/TR/CSS21/) parser and selector: the API of the crate `simplecss`
//! 0.2.2, over sources that are proved and then erased to Rust.
//!
//! ```
//! use simplecss::{DeclarationTokenizer, StyleSheet};
//!
//! let sheet = StyleSheet::parse("p { color: green; margin: 0 } .note { color: red !important }");
//! assert_eq!(sheet.rules.len(), 2);
//! assert_eq!(sheet.rules[1].selector.to_string(), "*[class~='note']");
//! assert_eq!(sheet.rules[1].selector.specificity(), [0, 1, 0]);
//! assert_eq!(sheet.rules[1].declarations[0].value, "red");
//!
//! let mut style = DeclarationTokenizer::from("fill: none; stroke: red");
//! assert_eq!(style.next().map(|it| it.name), Some("fill"));
//! ```
//!
//! Elements are of a type of your own, which implements [`Element`], or those of [`tree::Tree`]:
//!
//! ```
//! use simplecss::{tree::Tree, AttributeOperator, Element, PseudoClass, Selector};
//!
//! struct Node<'t> {
//!     name: &'t str,
//!     class: &'t str,
//!     parent: Option<&'t Node<'t>>,
//! }
//!
//! impl Element for &Node<'_> {
//!     fn parent_element(&self) -> Option<Self> {
//!         self.parent
//!     }
//!
//!     fn prev_sibling_element(&self) -> Option<Self> {
//!         None
//!     }
//!
//!     fn has_local_name(&self, name: &str) -> bool {
//!         self.name == name
//!     }
//!
//!     fn attribute_matches(&self, name: &str, operator: AttributeOperator<'_>) -> bool {
//!         name == "class" && operator.matches(self.class)
//!     }
//!
//!     fn pseudo_class_matches(&self, class: PseudoClass<'_>) -> bool {
//!         class == PseudoClass::FirstChild
//!     }
//! }
//!
//! let root = Node { name: "svg", class: "", parent: None };
//! let path = Node { name: "path", class: "thin", parent: Some(&root) };
//! let selector = Selector::parse("svg > .thin:first-child").unwrap();
//! assert!(selector.matches(&&path));
//! assert!(!selector.matches(&&root));
//! ```
//!
//! Beyond 0.2.2: [`index`] finds the rules that match without testing each, [`skipped`] lists what a sheet
//! skips and where, [`limit`] refuses sheets that would store too much, [`tree`] is a tree for programs
//! that have none, [`cascade`] says which declarations win, and with the feature `modern` the module of
//! this name reads sheets and selectors as browsers do, and `properties` has shorthands and `var()`.
//!
//! At-rules are skipped, and values are not parsed. A call that needs memory where there is none panics.
//! With the feature `log`, refused selectors and at-rules are warned of. Targets of 32 bits need the feature
//! `bits32`: on these a call panics if the text that it reads has more than 2^28 bytes.
#![no_std]
#![forbid(unsafe_code)]
#![warn(missing_docs)]

#[cfg(not(any(target_pointer_width = "64", all(target_pointer_width = "32", feature = "bits32"))))]
compile_error!("the sources are proved for targets of 64 bits; for 32 there is the feature `bits32`");

extern crate alloc;
#[cfg(feature = "std")]
extern crate std;

pub mod cascade;
pub mod index;
pub mod limit;
#[cfg(feature = "modern")]
pub mod modern;
#[cfg(feature = "modern")]
pub mod properties;
pub mod skipped;
pub mod tree;

// Older versions of Rust have some methods of `rattle_std` that are not stable there.
#[allow(unstable_name_collisions)]
#[allow(clippy::all, dead_code, missing_docs, unused_imports, unused_labels, unused_variables)]
mod erased;
#[allow(dead_code)]
mod rattle_log;
#[allow(dead_code, unused_imports)]
mod rattle_std;

pub use erased::simplecss::{
    AttributeOperator, Declaration, DeclarationTokenizer, Element, Error, PseudoClass,
    SelectorToken, SelectorTokenizer, TextPos,
};

use ::alloc::vec::Vec;
use core::fmt;
use erased::simplecss as proved;
use rattle_log::Process;
use rattle_std::alloc::Global;

/// Returns a text that is read. On a target of 32 bits it has at most 2^28 bytes.
#[inline(always)]
pub(crate) fn within(text: &str) -> &str {
    #[cfg(target_pointer_width = "32")]
    assert!(text.len() <= 1 << 28, "a text has more than 2^28 bytes, on a target of 32 bits");
    text
}

/// Returns the value, or panics where an allocation failed.
fn done<T, E>(outcome: Result<T, E>) -> T {
    match outcome {
        Ok(value) => value,
        Err(_) => panic!("memory allocation failed"),
    }
}

/// A selector.
pub struct Selector<'a>(proved::Selector<'a>);

impl<'a> Selector<'a> {
    /// Parses a selector. Returns `None` if the text is not one, which is warned of.
    pub fn parse(text: &'a str) -> Option<Self> {
        done(proved::Selector::parse(&Process, Global, text)).map(Selector)
    }

    /// Returns the specificity: how many ids, then how many classes, attributes and pseudo-classes, then
    /// how many names, each at most 255.
    pub fn specificity(&self) -> [u8; 3] {
        self.0.specificity()
    }

    /// Whether the selector matches the element.
    #[inline]
    pub fn matches<E: Element>(&self, element: &E) -> bool {
        self.0.matches(element)
    }
}

impl Clone for Selector<'_> {
    fn clone(&self) -> Self {
        Selector(done(self.0.clone()))
    }
}

impl fmt::Debug for Selector<'_> {
    fn fmt(&self, f: &mut fmt::Formatter<'_>) -> fmt::Result {
        fmt::Debug::fmt(&self.0, f)
    }
}

impl fmt::Display for Selector<'_> {
    fn fmt(&self, f: &mut fmt::Formatter<'_>) -> fmt::Result {
        fmt::Display::fmt(&self.0, f)
    }
}

/// A rule.
#[derive(Clone, Debug)]
pub struct Rule<'a> {
    /// The selector.
    pub selector: Selector<'a>,
    /// The declarations, in the order of the text.
    pub declarations: Vec<Declaration<'a>>,
}

/// A style sheet.
#[derive(Clone, Debug, Default)]
pub struct StyleSheet<'a> {
    /// The rules, by specificity.
    pub rules: Vec<Rule<'a>>,
}

impl<'a> StyleSheet<'a> {
    /// Creates an empty style sheet.
    pub fn new() -> Self {
        StyleSheet::default()
    }

    /// Parses a style sheet. What the grammar has no place for is skipped, at-rules too.
    pub fn parse(text: &'a str) -> Self {
        let mut sheet = StyleSheet::new();
        sheet.parse_more(text);
        sheet
    }

    /// Parses a text into the style sheet, whose rules are then those of both by specificity.
    pub fn parse_more(&mut self, text: &'a str) {
        let mut all = self.take_proved();
        let outcome = all.parse_more(&Process, Global, text);
        self.put_back(all);
        done(outcome);
    }

    /// Moves the rules into the sheet of the proved sources.
    fn take_proved(&mut self) -> proved::StyleSheet<'a> {
        let mut all = proved::StyleSheet::new(Global);
        for rule in self.rules.drain(..) {
            let declarations = rattle_std::vec::Vec(rule.declarations);
            done(all.rules.push(proved::Rule { selector: rule.selector.0, declarations }));
        }
        all
    }

    /// Moves the rules back.
    fn put_back(&mut self, all: proved::StyleSheet<'a>) {
        self.rules.extend(all.rules.into_iter().map(|rule| Rule {
            selector: Selector(rule.selector),
            declarations: rule.declarations.0,
        }));
    }
}

impl fmt::Display for StyleSheet<'_> {
    fn fmt(&self, f: &mut fmt::Formatter<'_>) -> fmt::Result {
        for (index, rule) in self.rules.iter().enumerate() {
            if index != 0 {
                writeln!(f)?;
            }
            write!(f, "{} {{ ", rule.selector)?;
            for it in &rule.declarations {
                let important = if it.important { " !important" } else { "" };
                write!(f, "{}:{}{important};", it.name, it.value)?;
            }
            write!(f, " }}")?;
        }
        Ok(())
    }
}
