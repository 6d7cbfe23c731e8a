//! How often the calls of `modern` that take a person's own elements ask one for its name, at n and 4n elements, for
//! tests/checkout.py. Each compound selector here has one name, so that a test of one asks once.
mod own;

use own::{Row, Rows};
use simplecss::modern::{Options, Selector, Sheet, Text};

/// A chain of elements `a`, each with two further children `b`.
fn chain(count: usize) -> Rows<'static> {
    let (mut rows, mut parent) = (Rows::default(), None);
    for _ in 0..count {
        let above = rows.push(Row { name: "a", parent, ..Row::default() });
        for _ in 0..2 {
            rows.push(Row { name: "b", attributes: vec![("class", "k")], parent: Some(above), ..Row::default() });
        }
        parent = Some(above);
    }
    rows
}

/// What was asked is at most so much.
fn at_most(what: &str, rows: &Rows, most: usize) {
    let asked = rows.take_asked();
    println!("{what}: {asked} of {most}");
    assert!(asked <= most, "{what}: names were asked {asked} times, and not at most {most} times");
}

/// One element with `count` ancestors: by blanks each element is tested once, and where an ancestor's parent fails,
/// too.
fn matches(rows: &Rows, count: usize) {
    let last = rows.node(rows.all().len() - 1);
    for (text, most) in [("c a a b", count + 1), ("a > a b", 3), ("b", 1), ("c > a a > a b", 2 * count)] {
        let selector = Selector::parse(text).unwrap();
        selector.matches(&last).unwrap();
        at_most(text, rows, most);
    }
    let text = Text::sheet("c a b { d: e }");
    let sheet = Sheet::parse(&text, &Options::default()).unwrap();
    sheet.winning(&last, "x").unwrap();
    at_most("winning of a property that no rule states", rows, 0);
    sheet.winning(&last, "d").unwrap();
    at_most("winning", rows, count + 1);
    sheet.rules().for_each(|rule| assert_eq!(rule.matches(&last), Ok(false)));
    at_most("Rule::matches", rows, count + 1);
}

/// A page: each compound selector of a list is tested on each element at most once. No element is `c`.
fn select(rows: &Rows, count: usize) {
    let (page, all) = (rows.page(), 3 * count);
    at_most("Page::push", rows, 0);
    let texts = [
        ("a:has(b)", 2),
        ("a:has(> a b)", 3),
        (":has(a b + c)", 1),
        ("b:nth-child(2 of b)", 2),
        ("b:nth-last-child(2n of b, c)", 3),
        ("a:not(:has(:nth-child(1 of c)))", 2),
    ];
    for (text, parts) in texts {
        page.select(&Selector::parse_list(text).unwrap(), usize::MAX).unwrap();
        at_most(text, rows, parts * all);
    }
}

/// A walk: each rule of which the element has a key is tested at most once, and only if it asks for more.
fn styles(rows: &Rows, count: usize) {
    let (page, all) = (rows.page(), 3 * count);
    let text = Text::sheet("a { x: 1 } .k { x: 2 } b.k { x: 3 } c b.k { x: 4 } a:has(b) { & b { x: 5 } }");
    let sheet = Sheet::parse(&text, &Options::default()).unwrap();
    let mut walk = page.styles(&sheet, usize::MAX).unwrap();
    // The list of `:has()` is answered once, and that of `&` after it twice.
    at_most("Page::styles", rows, 3 * all);
    for index in 0..all {
        walk.matching(index);
    }
    // One rule for each `a`, and two for each `b`.
    at_most("PageStyles::matching", rows, 5 * count);
    walk.matching(all - 1);
    rows.take_asked();
    for name in ["x", "y", "z"] {
        walk.style(all - 1, (), name);
    }
    at_most("PageStyles::style, again", rows, 0);
}

/// The index and the walk of a sheet.
fn index(rows: &Rows, count: usize) {
    let all = 3 * count;
    let text = Text::sheet("a { x: 1 } .k { x: 2 } #i b { x: 3 } c b.k { x: 4 } .l b { x: 5 } b.k { x: 6 }");
    let sheet = Sheet::parse(&text, &Options::default()).unwrap();
    let (mut index, mut walk) = (sheet.index().unwrap(), sheet.walk().unwrap());
    let last = rows.node(all - 1);
    index.matching(&last);
    at_most("Index::matching", rows, count + 4);
    for at in 0..count {
        walk.enter(&rows.node(3 * at));
    }
    at_most("Walk::enter", rows, 0);
    walk.matching(&last);
    at_most("Walk::matching", rows, 1);
}

fn main() {
    for count in [100, 400] {
        let rows = chain(count);
        for run in [matches, select, styles, index] {
            run(&rows, count);
        }
    }
}
