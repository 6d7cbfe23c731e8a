//! Answers of the module `modern` of the erased crate, for tests/checkout.py. Standard input is a tree and then texts, each a
//! length of 8 bytes and the bytes. To each text the answers are its declarations, their names, these printed, its rules, what it matches as a
//! list of selectors, what the index of its rules finds, and the winners of two properties, each with its length first. They are
//! in the form in which the program `tests_driver` writes them. A page of elements of another type answers as the document does, and so
//! does each of these elements, unless it says that it needs a page.
mod own;

use own::{Own, Row, Rows};
use simplecss::modern::{closed_value, decode, declarations, AtRule, Declaration, Declarations, Document, Item, NeedsPage};
use simplecss::modern::{Options, Page, Selector, Sheet, Text};
use simplecss::tree::Tree;
use std::fmt::Write as _;
use std::io::{Read, Write};

const PROPERTIES: [&str; 2] = ["color", "--x"];

/// Writes fields, each with the byte 1 at its end.
fn fields(out: &mut String, texts: [&str; 4]) {
    texts.iter().for_each(|it| *out += &format!("{it}\x01"));
}

fn at_rule(out: &mut String, it: &AtRule) {
    match it.block {
        Some(block) => fields(out, ["at-rule with block", it.name, it.prelude.text, block.text]),
        None => fields(out, ["at-rule", it.name, it.prelude.text, ""]),
    }
}

fn items(out: &mut String, list: Declarations) {
    for part in list {
        match part.item {
            Item::Declaration(one) => {
                let flags = ["open", "", "important, open", "important"];
                let flag = flags[2 * usize::from(one.important) + usize::from(one.closed)];
                fields(out, ["declaration", one.name, one.value, flag]);
            }
            Item::AtRule(it) => at_rule(out, &it),
            Item::Skipped(fault) => fields(out, ["skipped", fault.words(), part.text, ""]),
        }
    }
}

fn names(text: &str) -> String {
    let mut out = String::new();
    for part in declarations(text) {
        if let Item::Declaration(one) = part.item {
            out += &format!("{}\x01", decode(one.name));
        }
    }
    out
}

/// The declarations as they are printed, with what closes their values.
fn printed(text: &str) -> String {
    let mut out = String::new();
    for part in declarations(text) {
        if let Item::Declaration(one) = part.item {
            if let Some(value) = closed_value(one.value) {
                out += &format!("{} ", Declaration { value: &value, closed: true, ..one });
            }
        }
    }
    out
}

fn holds(name: &str, prelude: &str) -> bool {
    !(name.eq_ignore_ascii_case("media") && prelude.eq_ignore_ascii_case("print"))
}

fn rules(sheet: &Sheet) -> String {
    let mut out = String::new();
    for rule in sheet.rules() {
        out += &format!("{}\x01{}\x01", rule.text(), rule.pseudo_element().unwrap_or(""));
        items(&mut out, rule.declarations());
    }
    out
}

/// A tree, as a document and as a page of its own elements.
struct Both<'p, 't> {
    document: Document<'p, 't>,
    page: Page<Own<'p, 't>>,
}

/// What of a text is in no string and no escape.
fn outside_strings(text: &str) -> String {
    let (mut out, mut quote, mut rest) = (String::new(), None, text.chars());
    while let Some(one) = rest.next() {
        match (one, quote) {
            ('\\', _) => {
                rest.next();
            }
            (_, Some(open)) if one == open => quote = None,
            (_, Some(_)) => {}
            ('"' | '\'', None) => quote = Some(one),
            _ => out.push(one),
        }
    }
    out
}

/// Whether a selector has what a single element cannot answer.
fn is_of_page(selector: &Selector) -> bool {
    let text = outside_strings(&selector.to_string());
    text.contains(":has(") || text.contains(" of ")
}

/// The elements that one of the selectors matches.
fn selected(both: &mut Both, text: &str) -> Vec<usize> {
    let list = Selector::parse_list(text).unwrap();
    let found = both.document.select(&list, usize::MAX).unwrap();
    assert_eq!(both.page.select(&list, usize::MAX).unwrap(), found, "{text}");
    for it in list.iter().filter(|it| it.pseudo_element().is_none()) {
        assert_eq!(it.needs_page(), is_of_page(it), "{text}");
    }
    for number in 0..both.page.len() {
        let own = both.page.element(number).unwrap();
        let one: Result<Vec<bool>, NeedsPage> = list.iter().map(|it| it.matches(own)).collect();
        assert_eq!(one.is_err(), list.iter().any(|it| it.needs_page()));
        if let Ok(matches) = one {
            assert_eq!(matches.contains(&true), found.contains(&number), "{text}");
        }
    }
    found
}

fn matched(both: &mut Both, text: &str) -> String {
    let list = match Selector::parse_list(text) {
        Ok(list) => list,
        Err(error) => return format!("refused: {error}"),
    };
    let counts = list[0].specificity();
    let mut out = format!("{},{},{}:", counts.ids, counts.classes, counts.names);
    let printed: Vec<String> = list.iter().map(|it| it.to_string()).collect();
    selected(both, text).iter().for_each(|it| write!(out, " {it}").unwrap());
    out + "\x01" + &printed.join(", ")
}

/// The rules that each element matches, without those that have a pseudo-element.
fn found(both: &mut Both, sheet: &Sheet) -> String {
    let all: Vec<_> = sheet.rules().collect();
    let (mut out, mut index, mut walk) = (String::new(), sheet.index(), both.page.styles(sheet, usize::MAX).unwrap());
    assert_eq!(index.is_err(), sheet.needing_page().next().is_some());
    let mut styles = both.document.styles(sheet, usize::MAX).unwrap();
    let size = both.page.len();
    for number in (0..size).map(|it| it * 7 % size) {
        assert_eq!(walk.matching(number), styles.matching(number));
    }
    for number in 0..size {
        let (own, numbers) = (both.page.element(number).unwrap(), styles.matching(number).to_vec());
        assert_eq!(walk.matching(number), numbers);
        if let Ok(index) = &mut index {
            assert_eq!(index.matching(own), numbers);
        }
        let without: Vec<_> = numbers.into_iter().filter(|it| all[*it].pseudo_element().is_none()).collect();
        for (at, rule) in all.iter().enumerate() {
            assert_eq!(rule.matches(own).is_err(), rule.needs_page());
            assert_eq!(rule.matches(own).unwrap_or(without.contains(&at)), without.contains(&at));
        }
        without.iter().for_each(|it| write!(out, " {it}").unwrap());
        out.push('\n');
    }
    out
}

fn winners(both: &mut Both, sheet: &Sheet) -> String {
    let own = Text::any_value("COLOR: a; --x: b !important");
    let (mut out, mut of_page) = (String::new(), both.page.styles(sheet, usize::MAX).unwrap());
    let mut styles = both.document.styles(sheet, usize::MAX).unwrap();
    for number in 0..both.page.len() {
        let all: Vec<Declaration> = styles.winners(number, ()).iter().map(|it| it.declaration).collect();
        for name in PROPERTIES {
            let won = styles.style(number, (), name);
            assert_eq!(of_page.style(number, (), name), won);
            assert_eq!(of_page.style(number, &own, name), styles.style(number, &own, name));
            let won = won.map(|it| it.declaration);
            match sheet.winning(both.page.element(number).unwrap(), name) {
                Ok(found) => assert_eq!(found, won),
                Err(NeedsPage) => assert!(sheet.needing_page().next().is_some()),
            }
            let is_it = |it: &&Declaration| it.name == name || name == "color" && it.name.eq_ignore_ascii_case(name);
            assert_eq!(all.iter().find(is_it), won.as_ref());
            if let Some(it) = won {
                write!(out, "{name}={}={};", it.value, it.important).unwrap();
            }
        }
        out.push('\n');
    }
    out
}

fn answers(both: &mut Both, text: &str) -> [String; 7] {
    let options = Options { limit: usize::MAX, ..Options::default() };
    let (mut list, any) = (String::new(), Text::any_value(text));
    let sheet = Sheet::parse_where(&any, &options, holds).unwrap();
    items(&mut list, declarations(text));
    let matches = matched(both, text);
    let (index, winners) = (found(both, &sheet), winners(both, &sheet));
    [list, names(text), printed(text), rules(&sheet), matches, index, winners]
}

/// Reads a tree as `tests_driver` does.
fn tree(lines: &str) -> Rows<'_> {
    let (mut rows, mut open) = (Rows::default(), Vec::new());
    for line in lines.split('\n') {
        let mut fields = line.split('\x01');
        open.truncate(fields.next().unwrap().parse().unwrap());
        let (name, parent) = (fields.next().unwrap(), open.last().copied());
        let has_content = fields.next() == Some("1");
        let attributes = fields.filter_map(|it| it.split_once('=')).collect();
        open.push(rows.push(Row { name, attributes, parent, has_content, ..Row::default() }));
    }
    rows
}

/// The same elements as a ready tree.
fn ready<'t>(rows: &Rows<'t>) -> Tree<'t> {
    let mut tree = Tree::new();
    for row in rows.all() {
        tree.push(row.parent, row.name).unwrap();
        row.attributes.iter().for_each(|(name, value)| tree.set_attribute(name, value).unwrap());
    }
    tree
}

/// Reads a length and so many bytes.
fn next<'t>(rest: &mut &'t [u8]) -> Option<&'t str> {
    let (length, after) = (rest.get(..8)?, rest.get(8..)?);
    let (text, more) = after.split_at(u64::from_le_bytes(length.try_into().ok()?) as usize);
    *rest = more;
    std::str::from_utf8(text).ok()
}

fn main() {
    let mut input = Vec::new();
    std::io::stdin().read_to_end(&mut input).unwrap();
    let mut rest = input.as_slice();
    let rows = tree(next(&mut rest).unwrap());
    let tree = ready(&rows);
    let mut both = Both { document: Document::new(&tree), page: rows.page() };
    (0..tree.len()).filter(|it| rows.all()[*it].has_content).for_each(|it| both.document.set_text(it));
    let mut out = std::io::BufWriter::new(std::io::stdout().lock());
    while let Some(text) = next(&mut rest) {
        for answer in answers(&mut both, text) {
            out.write_all(&(answer.len() as u64).to_le_bytes()).unwrap();
            out.write_all(answer.as_bytes()).unwrap();
        }
    }
}
