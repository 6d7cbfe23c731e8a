//! Answers of the erased crate, for tests/release.py: to each text of standard input, which is a length of 8 bytes and the bytes,
//! the printed sheet, the printed selector, what is skipped, the matches and winners on a tree, and the tokens, each with its length
//! first.
use simplecss::cascade::{Cascade, Rules};
use simplecss::index::RuleIndex;
use simplecss::skipped::{find_skipped, Place};
use simplecss::tree::Tree;
use simplecss::{DeclarationTokenizer, Selector, SelectorTokenizer, StyleSheet};
use std::fmt::Write as _;
use std::io::{Read, Write};

/// The elements of the tree: depth, name, and keys and values.
const PAGE: [(usize, &str, &[(&str, &str)]); 7] = [
    (0, "div", &[("lang", "en")]),
    (1, "p", &[("class", "note b"), ("a", "b")]),
    (2, "a", &[("a", "b c"), ("id", "x")]),
    (2, "p", &[("a", "x-y"), ("class", "note")]),
    (1, "p", &[]),
    (2, "color", &[("class", "x")]),
    (1, "div", &[("a", ""), ("lang", "de")]),
];

fn tree() -> Tree<'static> {
    let (mut tree, mut above) = (Tree::new(), Vec::new());
    for (depth, name, attributes) in PAGE {
        above.truncate(depth);
        above.push(tree.push(above.last().copied(), name).unwrap());
        for (key, value) in attributes {
            tree.set_attribute(key, value).unwrap();
        }
    }
    tree
}

fn matches(tree: &Tree, sheet: &StyleSheet) -> String {
    let mut out = String::new();
    let mut index = RuleIndex::new(sheet);
    for number in 0..tree.len() {
        let node = tree.node(number).unwrap();
        let found: Vec<usize> = (0..sheet.rules.len()).filter(|it| sheet.rules[*it].selector.matches(&node)).collect();
        assert_eq!(index.matching(&node), found);
        write!(out, "{}:", number + 1).unwrap();
        found.iter().for_each(|it| write!(out, " {}", it + 1).unwrap());
        out.push('\n');
    }
    out
}

fn winners(tree: &Tree, sheet: &StyleSheet) -> String {
    let (mut out, rules) = (String::new(), Rules::of(sheet));
    let mut cascade = Cascade::new(&rules);
    for number in 0..tree.len() {
        for it in cascade.winners(&tree.node(number).unwrap()) {
            write!(out, "{}={}={};", it.name, it.value, it.important).unwrap();
        }
        out.push('\n');
    }
    out
}

fn skipped(text: &str) -> String {
    let (mut out, mut place) = (String::new(), Place::START);
    for part in find_skipped(text) {
        place = place.find(text, part.from);
        writeln!(out, "{}:{}:{}", place.pos, part.why.words(), part.quote()).unwrap();
    }
    out
}

/// What `tests_driver tokens` prints.
fn tokens(text: &str) -> String {
    let items = SelectorTokenizer::from(text).map(|it| format!("{it:?}\n"));
    items.chain(DeclarationTokenizer::from(text).map(|it| format!("{it:?}\n"))).collect()
}

fn answers(tree: &Tree, text: &str) -> [String; 6] {
    let sheet = StyleSheet::parse(text);
    let end = if sheet.rules.is_empty() { "" } else { "\n" };
    // The library reads lists, and this what comes before `,`, `{` or `/`.
    let is_one = !text.contains([',', '{', '/']);
    let selector = Selector::parse(text).filter(|_| is_one).map_or(String::new(), |it| {
        let [a, b, c] = it.specificity();
        format!("{it}\t{a},{b},{c}\n")
    });
    [format!("{sheet}{end}"), selector, skipped(text), matches(tree, &sheet), winners(tree, &sheet), tokens(text)]
}

fn main() {
    let mut input = Vec::new();
    std::io::stdin().read_to_end(&mut input).unwrap();
    let (tree, mut rest) = (tree(), input.as_slice());
    let mut out = std::io::BufWriter::new(std::io::stdout().lock());
    while let Some((length, more)) = rest.split_first_chunk::<8>() {
        let (text, more) = more.split_at(u64::from_le_bytes(*length) as usize);
        for answer in answers(&tree, std::str::from_utf8(text).unwrap()) {
            out.write_all(&(answer.len() as u64).to_le_bytes()).unwrap();
            out.write_all(answer.as_bytes()).unwrap();
        }
        rest = more;
    }
}
