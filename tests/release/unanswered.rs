//! What a single element cannot answer is an error, and what a page answers is right, whatever was asked before. The winners,
//! and which conditions hold, are those of Chromium 156.
use simplecss::modern::{Document, NeedsPage, Options, Page, Selector, Sheet, Text, TooManyAnswers};
use simplecss::tree::Tree;

/// A list of two items, of which the second has a link.
fn tree() -> Tree<'static> {
    let mut tree = Tree::new();
    let list = tree.push(None, "ul").unwrap();
    tree.push(Some(list), "li").unwrap();
    let item = tree.push(Some(list), "li").unwrap();
    tree.push(Some(item), "a").unwrap();
    tree
}

fn sheet<'a>(text: &'a Text<'_>) -> Sheet<'a> {
    Sheet::parse(text, &Options::default()).unwrap()
}

/// The winners of `color`, on a document and on a page of its elements.
fn colors(document: &mut Document, text: &str) -> Vec<Option<String>> {
    let text = Text::sheet(text);
    let sheet = sheet(&text);
    let mut styles = document.styles(&sheet, 1_000).unwrap();
    let one = (0..4).map(|it| styles.style(it, (), "color").map(|it| it.declaration.value.to_string())).collect();
    let mut page = Page::new();
    for (index, parent) in [None, Some(0), Some(0), Some(2)].into_iter().enumerate() {
        page.push(parent, document.node(index).unwrap()).unwrap();
    }
    let mut styles = page.styles(&sheet, 1_000).unwrap();
    let other: Vec<_> = (0..4).map(|it| styles.style(it, (), "color").map(|it| it.declaration.value.to_string())).collect();
    assert_eq!(one, other, "{text:?}");
    one
}

/// Group rules of which `fill` is the one property that is known.
const CONDITIONS: [(&str, &str, bool); 20] = [
    ("supports", "(fill: red)", true),
    ("supports", "(FILL: red)", true),
    ("supports", "(\\66 ill: red)", true),
    ("supports", "(fill:)", false),
    ("supports", "(--x:)", true),
    ("supports", "(x: y)", false),
    ("supports", "not (x: y)", true),
    ("supports", "(x: y) or (fill: red)", true),
    ("supports", "(fill: red) and (not (x: y))", true),
    ("supports", "selector(a:has(> b))", true),
    ("supports", "selector(a..b)", false),
    ("supports", "fill: red", false),
    ("media", "", true),
    ("media", "ALL, print", true),
    ("media", "print", false),
    ("media", "not print", true),
    ("media", "(foo)", false),
    ("media", "not (foo)", false),
    ("media", "screen and (min-width: 1px) and (orientation)", true),
    ("media", "(max-width: 1px), (1px < width)", true),
];

fn main() {
    let options = Options { properties: &["fill"], ..Options::default() };
    for (keyword, prelude, due) in CONDITIONS {
        assert_eq!(options.holds(keyword, prelude), due, "@{keyword} {prelude}");
        assert_eq!(options.holds(&keyword.to_uppercase(), prelude), due);
        let text = format!("@{keyword} {prelude} {{ a {{ b: c }} }}");
        assert_eq!(Sheet::parse(&Text::sheet(&text), &options).unwrap().rules().len(), usize::from(due), "{text}");
    }
    assert!(!options.holds("container", "(min-width: 1px)") && !options.holds("", ""));
    let tree = tree();
    let mut document = Document::new(&tree);
    // Those that match, in any order: no answer is one of another sheet's lists.
    let rows: [(&str, [Option<&str>; 4]); 12] = [
        ("li{color:green} li:not(:has(a)){color:red}", [None, Some("red"), Some("green"), None]),
        (":has(a){color:blue}", [Some("blue"), None, Some("blue"), None]),
        (":has(b){color:blue}", [None; 4]),
        ("li:not(:nth-child(1 of li)){color:red}", [None, None, Some("red"), None]),
        ("li:nth-last-child(1 of ul > li){color:red}", [None, None, Some("red"), None]),
        ("li:nth-child(even of li){color:red} li:nth-last-child(2 of *){color:blue}", [
            None, Some("blue"), Some("red"), None]),
        ("ul{& > li{color:red} li &{color:blue}}", [None, Some("red"), Some("red"), None]),
        ("ul{a{color:red}} .none{li{color:blue}}", [None, None, None, Some("red")]),
        ("li{color:green} li:has(~ li){color:red!important} li:is(:not(:has(*))){color:blue}", [
            None, Some("red"), Some("green"), None]),
        ("@layer x{li{color:red}} li:has(a){color:revert-layer} li{color:green}", [
            None, Some("green"), Some("red"), None]),
        ("@layer x{li:has(a){color:red!important}} li:has(a){color:green!important}", [
            None, None, Some("red"), None]),
        ("li{color:red} li{color:var(--a,!)!important;color:var(b)}", [None, Some("red"), Some("red"), None]),
    ];
    for (text, due) in rows.iter().chain(rows.iter().rev()) {
        assert_eq!(colors(&mut document, text), due.map(|it| it.map(str::to_string)), "{text}");
    }
    // A single element.
    let node = document.node(2).unwrap();
    for text in ["li:has(a)", "li:not(:has(a))", ":nth-child(1 of a)", ":not(:nth-last-child(2 of li))", "ul:has(a) li"] {
        let selector = Selector::parse(text).unwrap();
        assert!(selector.needs_page(), "{text}");
        assert_eq!(selector.matches(&node), Err(NeedsPage), "{text}");
        let text = format!("li {{ color: green }} {text} {{ color: red }}");
        let read = Text::sheet(&text);
        let sheet = sheet(&read);
        assert_eq!(sheet.winning(&node, "color").err(), Some(NeedsPage), "{text}");
        assert!(sheet.index().is_err() && sheet.walk().is_err(), "{text}");
        let all: Vec<_> = sheet.rules().map(|rule| rule.matches(&node)).collect();
        assert_eq!(all, [Ok(true), Err(NeedsPage)], "{text}");
        assert_eq!(sheet.needing_page().map(|rule| rule.text()).count(), 1, "{text}");
    }
    let text = Text::sheet("li:nth-child(2) { color: red; color: var(--a,!) } ul:is(:scope, &) > li { width: 1px }");
    let sheet = sheet(&text);
    assert_eq!(sheet.winning(&node, "color").unwrap().unwrap().value, "red");
    assert_eq!(sheet.index().unwrap().matching(&node), [0, 1]);
    // Limits: two lists, four elements.
    let list = Selector::parse_list("ul:has(li), a:nth-child(1 of a)").unwrap();
    assert_eq!(document.select(&list, 7), Err(TooManyAnswers));
    assert_eq!(document.select(&list, 8), Ok(vec![0, 3]));
    let mut page = Page::new();
    (0..4).for_each(|it| assert_eq!(page.push(None, document.node(it).unwrap()), Ok(it)));
    assert_eq!(page.select(&list, 7), Err(TooManyAnswers));
    assert_eq!(page.select(&list, 8), Ok(vec![3]));
    // A selector has the lists that it had, on another page too.
    assert!(page.push(Some(4), document.node(0).unwrap()).is_err());
    assert_eq!(Page::<simplecss::modern::Node>::new().select(&list, 0), Ok(vec![]));
    assert_eq!(document.select(&list[..1], 4), Ok(vec![0]));
}
