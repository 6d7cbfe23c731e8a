//! Modern CSS in a reader of SVG: which declarations of some properties win on each element, of the rules of
//! the document's `style` elements and of the element's `style` attribute. The elements are those of roxmltree.
//!
//!     cargo run --features modern --example modern < picture.svg

use simplecss::modern::{is_in_range, Element, Keyed, NamespacedAttribute, Options, Page, Sheet, Text};
use std::collections::HashMap;
use std::io::Read;

/// The properties that are printed.
const PROPERTIES: [&str; 4] = ["fill", "opacity", "stroke", "stroke-width"];

/// What is kept of an element, so that no question about it walks over its siblings or ancestors.
#[derive(Clone, Copy, Default)]
struct Kept<'a> {
    earlier: u32,
    later: u32,
    earlier_of_type: u32,
    later_of_type: u32,
    has_content: bool,
    language: &'a str,
}

/// An element of a document, with what is kept of all elements by the numbers of their nodes.
#[derive(Clone, Copy)]
struct XmlNode<'a, 'input> {
    node: roxmltree::Node<'a, 'input>,
    kept: &'a [Kept<'a>],
}

impl<'a, 'input> XmlNode<'a, 'input> {
    fn kept(&self) -> &'a Kept<'a> {
        &self.kept[self.node.id().get_usize()]
    }

    fn at(&self, node: Option<roxmltree::Node<'a, 'input>>) -> Option<Self> {
        node.map(|node| XmlNode { node, kept: self.kept })
    }
}

impl Element for XmlNode<'_, '_> {
    fn parent(&self) -> Option<Self> {
        self.at(self.node.parent_element())
    }

    fn previous_sibling(&self) -> Option<Self> {
        self.at(self.node.prev_sibling_element())
    }

    fn earlier_siblings(&self) -> u32 {
        self.kept().earlier
    }

    fn later_siblings(&self) -> u32 {
        self.kept().later
    }

    fn earlier_of_type(&self) -> u32 {
        self.kept().earlier_of_type
    }

    fn later_of_type(&self) -> u32 {
        self.kept().later_of_type
    }

    fn is_named(&self, name: &str) -> bool {
        self.local_name() == name
    }

    /// Namespaces have no numbers here: a selector declares none.
    fn is_in_namespace(&self, number: usize) -> bool {
        number == 0 && self.node.tag_name().namespace().is_none()
    }

    fn attribute(&self, name: &str) -> Option<&str> {
        self.node.attribute(name)
    }

    /// No selector declares a namespace, so all of them have one number.
    fn namespaced_attribute(&self, index: usize) -> Option<NamespacedAttribute<'_>> {
        let mut attributes = self.node.attributes().filter(|it| it.namespace().is_some());
        let found = attributes.nth(index)?;
        Some(NamespacedAttribute { namespace: 1, name: found.name(), value: found.value() })
    }

    /// A drawing that is not on a screen has no states.
    fn is_in_state(&self, _: &str) -> bool {
        false
    }

    fn is_in_language(&self, range: &str) -> bool {
        is_in_range(range, self.kept().language)
    }

    fn has_content(&self) -> bool {
        self.kept().has_content
    }

    /// `:scope` is the root.
    fn is_in_list(&self, number: usize) -> bool {
        number == 0 && self.node.parent_element().is_none()
    }
}

impl Keyed for XmlNode<'_, '_> {
    fn local_name(&self) -> &str {
        self.node.tag_name().name()
    }

    fn attribute_count(&self) -> usize {
        self.node.attributes().len()
    }

    fn attribute_name(&self, index: usize) -> &str {
        self.node.attributes().nth(index).map_or("", |it| it.name())
    }
}

/// Returns the namespace and the name.
fn type_of<'a>(node: roxmltree::Node<'a, '_>) -> (Option<&'a str>, &'a str) {
    (node.tag_name().namespace(), node.tag_name().name())
}

/// Counts the children of a node.
fn count_children(parent: roxmltree::Node<'_, '_>, kept: &mut [Kept]) {
    let (mut count, mut of_types) = (0, HashMap::new());
    for child in parent.children().filter(|it| it.is_element()) {
        let of_type = of_types.entry(type_of(child)).or_insert(0);
        let place = &mut kept[child.id().get_usize()];
        (place.earlier, place.earlier_of_type) = (count, *of_type);
        count += 1;
        *of_type += 1;
    }
    for child in parent.children().filter(|it| it.is_element()) {
        let place = &mut kept[child.id().get_usize()];
        place.later = count - 1 - place.earlier;
        place.later_of_type = of_types[&type_of(child)] - 1 - place.earlier_of_type;
    }
}

/// Returns the language that a node states.
fn language_of<'a>(node: roxmltree::Node<'a, '_>) -> Option<&'a str> {
    node.attribute((roxmltree::NS_XML_URI, "lang")).or(node.attribute("lang"))
}

/// Returns what is kept of each node.
fn keep<'a>(document: &'a roxmltree::Document) -> Vec<Kept<'a>> {
    let is_text = |it: roxmltree::Node<'_, '_>| it.is_text() && it.text() != Some("");
    let mut kept = vec![Kept::default(); document.descendants().count()];
    for node in document.descendants() {
        count_children(node, &mut kept);
        // A parent is before its children.
        let above = node.parent_element().map_or("", |it| kept[it.id().get_usize()].language);
        let place = &mut kept[node.id().get_usize()];
        place.has_content = node.children().any(|it| it.is_element() || is_text(it));
        place.language = language_of(node).unwrap_or(above);
    }
    kept
}

/// Returns the elements as a page.
fn page<'a, 'input>(document: &'a roxmltree::Document<'input>, kept: &'a [Kept<'a>]) -> Page<XmlNode<'a, 'input>> {
    let (mut page, mut indices) = (Page::new(), vec![0; kept.len()]);
    for node in document.descendants().filter(|it| it.is_element()) {
        let parent = node.parent_element().map(|it| indices[it.id().get_usize()]);
        indices[node.id().get_usize()] = page.push(parent, XmlNode { node, kept }).unwrap();
    }
    page
}

fn main() -> Result<(), Box<dyn std::error::Error>> {
    let mut text = String::new();
    std::io::stdin().read_to_string(&mut text)?;
    let document = roxmltree::Document::parse(&text)?;
    let sources = document.descendants().filter(|it| it.has_tag_name("style"));
    let sources: Vec<&str> = sources.filter_map(|it| it.text()).collect();
    let sources = sources.join("\n");
    let source = Text::sheet(&sources);
    let sheet = Sheet::parse(&source, &Options { properties: &PROPERTIES, ..Options::default() })?;
    let kept = keep(&document);
    let page = page(&document, &kept);
    let nodes: Vec<_> = (0..page.len()).map(|index| page.element(index).unwrap().node).collect();
    let own: Vec<_> = nodes.iter().map(|it| Text::style(it.attribute("style").unwrap_or(""))).collect();
    let mut styles = page.styles(&sheet, 10_000_000)?;
    for (index, node) in nodes.iter().enumerate() {
        print!("{}", node.tag_name().name());
        for name in PROPERTIES {
            if let Some(winner) = styles.style(index, &own[index], name) {
                print!(" {name}={:?}", winner.declaration.value);
            }
        }
        println!();
    }
    Ok(())
}
