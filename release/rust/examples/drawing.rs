//! What a reader of SVG does: the rules of the document's `style` elements apply to each element in order,
//! and then the declarations of its `style` attribute.
//!
//!     cargo run --example drawing < picture.svg

use simplecss::{AttributeOperator, Declaration, DeclarationTokenizer, Element, PseudoClass, StyleSheet};
use std::io::Read;

struct XmlNode<'a, 'input>(roxmltree::Node<'a, 'input>);

impl Element for XmlNode<'_, '_> {
    fn parent_element(&self) -> Option<Self> {
        self.0.parent_element().map(XmlNode)
    }

    fn prev_sibling_element(&self) -> Option<Self> {
        self.0.prev_sibling_element().map(XmlNode)
    }

    fn has_local_name(&self, name: &str) -> bool {
        self.0.tag_name().name() == name
    }

    fn attribute_matches(&self, name: &str, operator: AttributeOperator<'_>) -> bool {
        matches!(self.0.attribute(name), Some(value) if operator.matches(value))
    }

    fn pseudo_class_matches(&self, class: PseudoClass<'_>) -> bool {
        class == PseudoClass::FirstChild && self.prev_sibling_element().is_none()
    }
}

/// Sets an attribute, as a later declaration of its name does.
fn set<'a>(attributes: &mut Vec<Declaration<'a>>, new: Declaration<'a>) {
    match attributes.iter_mut().find(|it| it.name == new.name) {
        Some(old) if old.important && !new.important => {}
        Some(old) => *old = new,
        None => attributes.push(new),
    }
}

fn main() -> Result<(), Box<dyn std::error::Error>> {
    let mut text = String::new();
    std::io::stdin().read_to_string(&mut text)?;
    let document = roxmltree::Document::parse(&text)?;
    let mut sheet = StyleSheet::new();
    for style in document.descendants().filter(|it| it.has_tag_name("style")) {
        sheet.parse_more(style.text().unwrap_or(""));
    }
    for node in document.descendants().filter(|it| it.is_element()) {
        let mut attributes = Vec::new();
        let rules = sheet.rules.iter().filter(|it| it.selector.matches(&XmlNode(node)));
        for declaration in rules.flat_map(|it| &it.declarations) {
            set(&mut attributes, *declaration);
        }
        for declaration in DeclarationTokenizer::from(node.attribute("style").unwrap_or("")) {
            set(&mut attributes, declaration);
        }
        let set: Vec<String> = attributes.iter().map(|it| format!("{}={:?}", it.name, it.value)).collect();
        println!("{} {}", node.tag_name().name(), set.join(" "));
    }
    Ok(())
}
