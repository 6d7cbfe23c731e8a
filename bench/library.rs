//! The module `modern` of the Rust crate as a program, for bench/speed.py: `match SELECTORS TREE`, with a selector a line and a
//! tree as `cssq` takes it, writes for each element the numbers of the selectors that match it.
use simplecss::modern::{Document, Item, Options, Sheet, Text};
use simplecss::tree::Tree;
use std::fmt::Write;

fn read(text: &str) -> Tree<'_> {
    let (mut tree, mut open) = (Tree::new(), Vec::new());
    for line in text.lines() {
        let mut fields = line.split('\t');
        let depth: usize = fields.next().unwrap().parse().unwrap();
        open.truncate(depth);
        open.push(tree.push(open.last().copied(), fields.next().unwrap()).unwrap());
        for (key, value) in fields.filter_map(|it| it.split_once('=')) {
            tree.set_attribute(key, value).unwrap();
        }
    }
    tree
}

/// The number of a rule's line, which its declaration has.
fn number(items: simplecss::modern::Declarations<'_>) -> usize {
    let values = items.filter_map(|part| match part.item {
        Item::Declaration(it) => it.value.parse().ok(),
        _ => None,
    });
    values.last().unwrap()
}

fn main() {
    let files: Vec<String> = std::env::args().skip(2).map(|it| std::fs::read_to_string(it).unwrap()).collect();
    let mut text = String::new();
    for (at, line) in files[0].lines().enumerate() {
        writeln!(text, "{line}{{n:{}}}", at + 1).unwrap();
    }
    let tree = read(&files[1]);
    let options = Options { limit: usize::MAX, ..Options::default() };
    let text = Text::any_value(&text);
    let (mut document, sheet) = (Document::new(&tree), Sheet::parse(&text, &options).unwrap());
    let numbers: Vec<usize> = sheet.rules().map(|it| number(it.declarations())).collect();
    let (mut styles, mut out) = (document.styles(&sheet, usize::MAX).unwrap(), String::new());
    for at in 0..tree.len() {
        let mut found: Vec<usize> = styles.matching(at).iter().map(|it| numbers[*it]).collect();
        found.sort_unstable();
        write!(out, "{}:", at + 1).unwrap();
        found.iter().for_each(|it| write!(out, " {it}").unwrap());
        out.push('\n');
    }
    print!("{out}");
}
