//! An index of a sheet's rules: which match an element, without testing each.
//!
//! ```
//! use simplecss::{index::RuleIndex, tree::Tree, StyleSheet};
//!
//! let mut tree = Tree::new();
//! let root = tree.push(None, "svg").unwrap();
//! let path = tree.push(Some(root), "path").unwrap();
//! tree.set_attribute("class", "thin").unwrap();
//!
//! let sheet = StyleSheet::parse("path { fill: none } svg .thin { stroke-width: 1 } #a { x: y }");
//! let mut index = RuleIndex::new(&sheet);
//! assert_eq!(index.matching(&tree.node(path).unwrap()), [0, 1]);
//! ```
use crate::erased::simplecss as proved;
use crate::rattle_std::alloc::Global;
use crate::rattle_std::vec::Vec;
use crate::{done, StyleSheet};

pub use crate::erased::simplecss::Keyed;

/// The rules of a sheet as they were when this was made, and an index of them.
pub struct RuleIndex<'a> {
    rules: Vec<proved::Rule<'a>>,
    search: proved::RuleSearch<'a>,
    indices: Vec<usize>,
}

impl<'a> RuleIndex<'a> {
    /// Makes the index of a sheet's rules.
    pub fn new(sheet: &StyleSheet<'a>) -> Self {
        let rules = sheet.clone().take_proved().rules;
        let search = done(proved::RuleSearch::new(Global, &rules));
        RuleIndex { rules, search, indices: Vec::new(Global) }
    }

    /// Returns the indices in the sheet's `rules` of those that match the element, in order: what testing
    /// each rule finds.
    pub fn matching<E: Keyed>(&mut self, element: &E) -> &[usize] {
        let RuleIndex { rules, search, indices } = self;
        done(search.matching(rules, element, indices));
        &self.indices
    }
}
