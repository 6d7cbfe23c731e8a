//! Which rules of a style sheet match each element of a page: by the index of the module `modern`, and by a test of each rule.
//! The fastest of some runs, in turn, in seconds of elapsed time, and their quotient.
use simplecss::modern::{Document, Options, Sheet, Text};
use simplecss::tree::Tree;
use std::time::{Duration, Instant};

/// A page of sections, each with a table of buttons.
fn page(classes: &[String]) -> Tree<'_> {
    const NAMES: [&str; 6] = ["section", "table", "tr", "td", "a", "span"];
    let (mut tree, mut open) = (Tree::new(), Vec::new());
    for (number, class) in classes.iter().enumerate() {
        let depth = if number == 0 { 0 } else { [1, 2, 3, 4, 5, 5, 4, 3, 4, 5][number % 10] };
        open.truncate(depth);
        open.push(tree.push(open.last().copied(), NAMES[open.len()]).unwrap());
        tree.set_attribute("class", class).unwrap();
    }
    tree
}

fn timed(found: impl FnOnce() -> usize) -> (usize, Duration) {
    let began = Instant::now();
    (found(), began.elapsed())
}

fn main() {
    const CLASSES: [&str; 6] = ["container", "table table-hover", "active", "col-6", "btn btn-primary", "badge"];
    let text = std::fs::read_to_string(std::env::args().nth(1).unwrap()).unwrap();
    let classes: Vec<String> = (0..4000).map(|it| format!("{} n{}", CLASSES[it % 6], it % 50)).collect();
    let tree = page(&classes);
    let text = Text::sheet(&text);
    let sheet = Sheet::parse_where(&text, &Options::default(), |_, _| true).unwrap();
    let document = Document::new(&tree);
    let node = |number| document.node(number).unwrap();
    let count = |it| sheet.rules().filter(|rule| rule.matches(&node(it)).unwrap()).count();
    let by_rules = || (0..tree.len()).map(count).sum();
    let by_index = || {
        let mut index = sheet.index().unwrap();
        let rules: Vec<_> = sheet.rules().map(|it| it.pseudo_element().is_none()).collect();
        (0..tree.len()).map(|it| index.matching(&node(it)).iter().filter(|it| rules[**it]).count()).sum()
    };
    let (mut slow, mut fast) = (Duration::MAX, Duration::MAX);
    for _ in 0..7 {
        let ((some, one), (others, other)) = (timed(by_rules), timed(by_index));
        assert_eq!(some, others);
        (slow, fast) = (slow.min(one), fast.min(other));
    }
    let quotient = slow.as_secs_f64() / fast.as_secs_f64();
    println!("{} rules, {} elements: each rule {slow:?}, the index {fast:?}: {quotient:.1}", sheet.rules().len(), tree.len());
}
