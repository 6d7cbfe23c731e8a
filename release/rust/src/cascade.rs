//! Which declarations of a style sheet win on an element (CSS 2.1, section 6.4.1).
//!
//! ```
//! use simplecss::{cascade::{Cascade, Rules}, tree::Tree, StyleSheet};
//!
//! let mut tree = Tree::new();
//! let path = tree.push(None, "path").unwrap();
//! tree.set_attribute("class", "thin").unwrap();
//! let node = tree.node(path).unwrap();
//!
//! let rules = Rules::of(&StyleSheet::parse("path { fill: red !important } .thin { fill: none; x: 1 }"));
//! let winners = Cascade::new(&rules).winners(&node);
//! assert_eq!(winners.len(), 2);
//! assert_eq!(rules.winning(&node, "fill").unwrap().value, "red");
//! ```
use crate::erased::cssq::cascade as proved;
use crate::index::Keyed;
use crate::rattle_std::alloc::Global;
use crate::{done, Declaration, Element, StyleSheet};
use alloc::vec::Vec;

/// The rules of a sheet as they were when this was made.
pub struct Rules<'a>(crate::erased::simplecss::StyleSheet<'a>);

impl<'a> Rules<'a> {
    /// Returns the rules of a sheet.
    pub fn of(sheet: &StyleSheet<'a>) -> Self {
        Rules(sheet.clone().take_proved())
    }

    /// Returns the declaration that wins for the name on the element: among the declarations of this name
    /// in the rules that match, an important one beats one that is not, then one of a later rule beats,
    /// then a later one of the same rule.
    pub fn winning<E: Element>(&self, element: &E, name: &str) -> Option<Declaration<'a>> {
        proved::winning(&self.0, element, name)
    }
}

/// Finds the declarations that win on each element of a document, by an index that is made once.
pub struct Cascade<'s, 'a>(proved::Cascade<'s, 'a>);

impl<'s, 'a> Cascade<'s, 'a> {
    /// Makes the index of the rules.
    pub fn new(rules: &'s Rules<'a>) -> Self {
        Cascade(done(proved::Cascade::new(Global, &rules.0.rules)))
    }

    /// Returns for each name the declaration that wins on the element, in the order of rules and of
    /// declarations in them.
    pub fn winners<E: Keyed>(&mut self, element: &E) -> Vec<Declaration<'a>> {
        done(self.0.winners(element)).0
    }

    /// Returns the declarations of the rules that match the element, in order: those that
    /// [`Cascade::winners`] chooses from.
    pub fn stated<E: Keyed>(&mut self, element: &E) -> Vec<Declaration<'a>> {
        done(self.0.stated(element)).0
    }
}
