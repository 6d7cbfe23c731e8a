//! Pages as `modern::html` reads them, for tests/checkout.py. Standard input is pairs of a page and a list of selectors, each a length of 8
//! bytes and the bytes. The answer to each pair, with its length first, is a line for each element, each text, and the elements that match.
//! What a sheet of these selectors declares wins on the same elements.
use simplecss::modern::html::{Document, Element, Page};
use simplecss::modern::{Options, Selector, Sheet, Text};
use std::fmt::Write as _;
use std::io::{Read, Write};

fn line(it: &Element) -> String {
    let mut out = format!("{}\t{}\t{}\t{:?}\t{:?}", it.depth(), it.name(), it.namespace(), it.start_tag(), it.end_tag());
    for one in it.attributes() {
        assert!(one.range.start == one.name_range.start && one.value_range.end <= one.range.end);
        assert_eq!(it.attribute(one.name), Some(one.value));
        write!(out, "\t{}={}", one.name, one.value).unwrap();
    }
    out
}

/// The elements on which a sheet's declaration wins.
fn styled(document: &mut Document, count: usize, selectors: &str) -> Vec<usize> {
    let text = format!("{selectors} {{ a: b }}");
    let text = Text::sheet(&text);
    let sheet = Sheet::parse(&text, &Options::default()).unwrap();
    let rules = document.rules(&sheet);
    let mut styles = document.styles(&rules, usize::MAX).unwrap();
    for index in 0..count {
        assert_eq!(styles.matching(index).is_empty(), styles.winners(index, ()).is_empty());
    }
    (0..count).filter(|it| styles.style(*it, (), "a").is_some()).collect()
}

fn answer(text: &str, selectors: &str) -> String {
    let page = match Page::parse(text) {
        Ok(page) => page,
        Err(error) => return error.to_string(),
    };
    let mut out = format!("{} {}\n", page.is_quirky(), page.is_doubtful());
    for (index, it) in page.elements().enumerate() {
        assert_eq!(it.index(), index);
        assert!(it.parent().map_or(it.depth() == 0, |parent| page.element(parent).unwrap().depth() + 1 == it.depth()));
        out += &line(&it);
        out.push('\n');
    }
    for it in page.texts().filter(|it| !it.text.is_empty()) {
        writeln!(out, "{:?}\t{}", it.parent, it.text).unwrap();
    }
    let tree = page.tree();
    let mut document = page.document(&tree);
    let list = Selector::parse_list(selectors).unwrap();
    let found = document.select(&list, usize::MAX).unwrap();
    assert_eq!(styled(&mut document, page.len(), selectors), found);
    write!(out, "{found:?}").unwrap();
    out
}

fn main() {
    let mut data = Vec::new();
    std::io::stdin().read_to_end(&mut data).unwrap();
    let (mut texts, mut left) = (Vec::new(), &data[..]);
    while !left.is_empty() {
        let (length, rest) = left.split_at(8);
        let (text, rest) = rest.split_at(u64::from_le_bytes(length.try_into().unwrap()) as usize);
        texts.push(std::str::from_utf8(text).unwrap());
        left = rest;
    }
    let mut out = std::io::stdout().lock();
    for pair in texts.chunks(2) {
        let found = answer(pair[0], pair[1]);
        out.write_all(&(found.len() as u64).to_le_bytes()).unwrap();
        out.write_all(found.as_bytes()).unwrap();
    }
}
