//! A tree of a type of its own, for compare_modern.rs and counting.rs: it counts how often an element is asked for its name.
use simplecss::modern::{is_in_range, Element, Keyed, NamespacedAttribute, Page};
use std::cell::Cell;

/// An element of a tree, with what is kept of it.
#[derive(Default)]
pub struct Row<'t> {
    pub name: &'t str,
    pub attributes: Vec<(&'t str, &'t str)>,
    pub parent: Option<usize>,
    pub has_content: bool,
    /// What `Rows::push` finds: the sibling before, how many siblings are before and after, also of its type, and the language.
    pub previous: Option<usize>,
    pub counts: [u32; 4],
    pub language: &'t str,
}

/// The elements in the order of the document, and how often names were asked.
#[derive(Default)]
pub struct Rows<'t> {
    rows: Vec<Row<'t>>,
    asked: Cell<usize>,
}

impl<'t> Rows<'t> {
    /// Adds an element after its parent and its earlier siblings.
    pub fn push(&mut self, row: Row<'t>) -> usize {
        let index = self.rows.len();
        let own = row.attributes.iter().find(|it| it.0 == "lang").map(|it| it.1);
        let language = own.unwrap_or(row.parent.map_or("", |it| self.rows[it].language));
        let siblings = || self.rows.iter().enumerate().filter(|it| it.1.parent == row.parent);
        let of_type = || siblings().filter(|it| it.1.name == row.name);
        let counts = [siblings().count() as u32, 0, of_type().count() as u32, 0];
        let previous = siblings().map(|it| it.0).last();
        for one in self.rows.iter_mut().filter(|it| it.parent == row.parent) {
            one.counts[1] += 1;
            one.counts[3] += u32::from(one.name == row.name);
        }
        if let Some(parent) = row.parent {
            self.rows[parent].has_content = true;
        }
        self.rows.push(Row { counts, previous, language, ..row });
        index
    }

    #[allow(dead_code)]
    pub fn all(&self) -> &[Row<'t>] {
        &self.rows
    }

    pub fn node(&self, index: usize) -> Own<'_, 't> {
        Own { rows: self, index }
    }

    pub fn page(&self) -> Page<Own<'_, 't>> {
        let mut page = Page::new();
        for index in 0..self.rows.len() {
            assert_eq!(page.push(self.rows[index].parent, self.node(index)), Ok(index));
        }
        page
    }

    /// Returns how often an element was asked for its name since the last call.
    #[allow(dead_code)]
    pub fn take_asked(&self) -> usize {
        self.asked.take()
    }
}

#[derive(Clone, Copy)]
pub struct Own<'n, 't> {
    rows: &'n Rows<'t>,
    index: usize,
}

impl<'n, 't> Own<'n, 't> {
    fn row(&self) -> &'n Row<'t> {
        &self.rows.rows[self.index]
    }
}

impl Element for Own<'_, '_> {
    fn parent(&self) -> Option<Self> {
        self.row().parent.map(|it| self.rows.node(it))
    }

    fn previous_sibling(&self) -> Option<Self> {
        self.row().previous.map(|it| self.rows.node(it))
    }

    fn earlier_siblings(&self) -> u32 {
        self.row().counts[0]
    }

    fn later_siblings(&self) -> u32 {
        self.row().counts[1]
    }

    fn earlier_of_type(&self) -> u32 {
        self.row().counts[2]
    }

    fn later_of_type(&self) -> u32 {
        self.row().counts[3]
    }

    fn is_named(&self, name: &str) -> bool {
        self.rows.asked.set(self.rows.asked.get() + 1);
        self.row().name == name
    }

    fn is_in_namespace(&self, number: usize) -> bool {
        number == 0
    }

    fn attribute(&self, name: &str) -> Option<&str> {
        self.row().attributes.iter().find(|it| it.0 == name).map(|it| it.1)
    }

    fn namespaced_attribute(&self, _: usize) -> Option<NamespacedAttribute<'_>> {
        None
    }

    fn is_in_state(&self, _: &str) -> bool {
        false
    }

    fn is_in_language(&self, range: &str) -> bool {
        is_in_range(range, self.row().language)
    }

    fn has_content(&self) -> bool {
        self.row().has_content
    }

    fn is_in_list(&self, number: usize) -> bool {
        assert_eq!(number, 0, "an element was asked about a list");
        self.row().parent.is_none()
    }
}

impl Keyed for Own<'_, '_> {
    fn local_name(&self) -> &str {
        self.row().name
    }

    fn attribute_count(&self) -> usize {
        self.row().attributes.len()
    }

    fn attribute_name(&self, index: usize) -> &str {
        self.row().attributes[index].0
    }
}
