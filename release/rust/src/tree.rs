//! A tree for programs that have none: elements that selectors match.
//!
//! ```
//! use simplecss::{tree::Tree, Selector};
//!
//! let mut tree = Tree::new();
//! let list = tree.push(None, "ul").unwrap();
//! let item = tree.push(Some(list), "li").unwrap();
//! tree.set_attribute("class", "last odd").unwrap();
//! assert!(Selector::parse("ul > li.odd").unwrap().matches(&tree.node(item).unwrap()));
//! ```
use crate::erased::simplecss_tree as proved;
use crate::erased::simplecss_tree::Nodes as _;
use crate::rattle_std::alloc::Global;
use core::fmt;

pub use crate::erased::simplecss_tree::{Node, States};

/// There is no such element, and the tree is unchanged.
#[derive(Clone, Copy, Debug, PartialEq)]
pub struct NoElement;

impl fmt::Display for NoElement {
    fn fmt(&self, f: &mut fmt::Formatter<'_>) -> fmt::Result {
        f.write_str("no such element")
    }
}

impl crate::rattle_std::error::Error for NoElement {}

/// Returns the value, or that there is no such element.
fn found<T>(outcome: Result<T, proved::TreeError>) -> Result<T, NoElement> {
    match outcome {
        Ok(value) => Ok(value),
        Err(proved::TreeError::NoElement) => Err(NoElement),
        Err(proved::TreeError::Memory) => panic!("memory allocation failed"),
    }
}

/// A tree: elements in the order in which they were added. Names, attributes and values are slices of the
/// document's text and are not copied.
#[derive(Debug)]
pub struct Tree<'t>(pub(crate) proved::Tree<'t>);

impl Default for Tree<'_> {
    fn default() -> Self {
        Tree::new()
    }
}

impl<'t> Tree<'t> {
    /// Creates a tree without elements.
    pub fn new() -> Self {
        Tree(proved::Tree::new(Global))
    }

    /// Returns the number of elements.
    pub fn len(&self) -> usize {
        self.0.len()
    }

    /// Whether there is no element.
    pub fn is_empty(&self) -> bool {
        self.0.len() == 0
    }

    /// Adds an element as the last child of the parent, or without one, and returns its index.
    pub fn push(&mut self, parent: Option<usize>, name: &'t str) -> Result<usize, NoElement> {
        found(self.0.push(parent, name))
    }

    /// Adds an attribute to the element that was added last. Of two with one name the first counts.
    pub fn set_attribute(&mut self, name: &'t str, value: &'t str) -> Result<(), NoElement> {
        found(self.0.set_attribute(name, value))
    }

    /// Sets the states of the element at an index.
    pub fn set_states(&mut self, index: usize, states: States) -> Result<(), NoElement> {
        found(self.0.set_states(index, states))
    }

    /// Returns the element at an index, if there is one.
    pub fn node(&self, index: usize) -> Option<Node<'_, 't>> {
        self.0.node(index)
    }
}
