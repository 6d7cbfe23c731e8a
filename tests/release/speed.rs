//! Parsing a style sheet, and testing each rule on each element of a page, by the erased crate and by `peer`, the crate of Debian:
//! processor time of the fastest of some runs, in turn.
use std::time::Duration;

struct Node {
    name: &'static str,
    class: String,
    parent: Option<usize>,
    previous: Option<usize>,
}

#[derive(Clone, Copy)]
struct At<'d>(&'d [Node], usize);

macro_rules! element {
    ($library:ident) => {
        impl $library::Element for At<'_> {
            fn parent_element(&self) -> Option<Self> {
                self.0[self.1].parent.map(|it| At(self.0, it))
            }
            fn prev_sibling_element(&self) -> Option<Self> {
                self.0[self.1].previous.map(|it| At(self.0, it))
            }
            fn has_local_name(&self, name: &str) -> bool {
                self.0[self.1].name == name
            }
            fn attribute_matches(&self, name: &str, operator: $library::AttributeOperator<'_>) -> bool {
                name == "class" && operator.matches(&self.0[self.1].class)
            }
            fn pseudo_class_matches(&self, class: $library::PseudoClass<'_>) -> bool {
                matches!(class, $library::PseudoClass::FirstChild) && self.0[self.1].previous.is_none()
            }
        }
    };
}
element!(simplecss);
element!(peer);

/// A page of sections, each with a table of buttons.
fn page() -> Vec<Node> {
    const NAMES: [&str; 6] = ["section", "table", "tr", "td", "a", "span"];
    const CLASSES: [&str; 6] = ["container", "table table-hover", "active", "col-6", "btn btn-primary", "badge"];
    let (mut nodes, mut last) = (Vec::<Node>::new(), [None; 6]);
    for number in 0..4000 {
        let depth = if number == 0 { 0 } else { [1, 2, 3, 4, 5, 5, 4, 3, 4, 5][number % 10] };
        let parent = if depth == 0 { None } else { last[depth - 1] };
        let previous = last[depth].filter(|it: &usize| nodes[*it].parent == parent);
        let class = format!("{} n{}", CLASSES[depth], number % 50);
        nodes.push(Node { name: NAMES[depth], class, parent, previous });
        last[depth] = Some(number);
    }
    nodes
}

/// The processor time of this thread.
fn clock() -> Duration {
    let text = std::fs::read_to_string("/proc/thread-self/schedstat").unwrap();
    Duration::from_nanos(text.split(' ').next().unwrap().parse().unwrap())
}

fn timed<T>(best: &mut Duration, count: u32, mut work: impl FnMut() -> T) -> T {
    let begun = clock();
    (1..count).for_each(|_| drop(std::hint::black_box(work())));
    let value = work();
    *best = (*best).min((clock() - begun) / count);
    value
}

fn main() {
    let css = std::fs::read_to_string(std::env::args().nth(1).unwrap()).unwrap();
    let (nodes, mut best) = (page(), [Duration::MAX; 4]);
    let mut found = (0, 0, 0, 0);
    for _ in 0..5 {
        let own = timed(&mut best[0], 10, || simplecss::StyleSheet::parse(&css));
        let other = timed(&mut best[1], 2, || peer::StyleSheet::parse(&css));
        let mine = timed(&mut best[2], 1, || {
            (0..nodes.len()).map(|it| own.rules.iter().filter(|rule| rule.selector.matches(&At(&nodes, it))).count()).sum::<usize>()
        });
        let theirs = timed(&mut best[3], 1, || {
            (0..nodes.len()).map(|it| other.rules.iter().filter(|rule| rule.selector.matches(&At(&nodes, it))).count()).sum::<usize>()
        });
        found = (own.rules.len(), other.rules.len(), mine, theirs);
    }
    let calls = |rules: usize, time: Duration| time.as_nanos() as f64 / (rules * nodes.len()) as f64;
    println!("parse: {:.2} ms, simplecss 0.2.0 {:.2} ms; rules {} and {}", best[0].as_secs_f64() * 1e3, best[1].as_secs_f64() * 1e3, found.0, found.1);
    println!("matches: {:.1} ns a call, simplecss 0.2.0 {:.1} ns; {} and {} match", calls(found.0, best[2]), calls(found.1, best[3]), found.2, found.3);
}
