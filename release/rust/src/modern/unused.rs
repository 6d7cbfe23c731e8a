//! The rules of a sheet that match nothing.
use super::html::Page;
use super::{Rule, Selector, Sheet};
use crate::done;
use crate::erased::css_syntax::{read_names, NameKind};
use crate::rattle_std::alloc::Global;
use alloc::string::{String, ToString};
use alloc::vec::Vec;

/// The pseudo-classes that depend on the tree alone, or on what is a link: they are asked as they are.
const ASKED: [&str; 19] = [
    "any-link", "empty", "first-child", "first-of-type", "has", "is", "lang", "last-child", "last-of-type", "link", "not",
    "nth-child", "nth-last-child", "nth-last-of-type", "nth-of-type", "only-child", "only-of-type", "root", "where",
];

/// Returns a selector with a test that always holds in place of each state, and with one that never does within `:not()`;
/// `None` where it is not known what that is, as of a state with parentheses.
fn with_states_met(selector: &str) -> Option<String> {
    let (mut met, mut end) = (String::new(), 0);
    for name in done(read_names(Global, selector.as_bytes())).iter() {
        if !matches!(name.kind, NameKind::PseudoClass | NameKind::PseudoClassFunction) {
            continue;
        }
        let at = |rest: &[u8]| selector.len() - rest.len();
        let word = selector[at(name.name)..at(name.rest)].to_ascii_lowercase();
        if ASKED.contains(&word.as_str()) {
            continue;
        }
        if name.kind == NameKind::PseudoClassFunction || name.negated > 1 {
            return None;
        }
        met.push_str(&selector[end..at(name.from)]);
        met.push_str(match (name.negated, word.as_str()) {
            (0, "visited") => ":link",
            (0, _) => ":is(*)",
            _ => ":not(*)",
        });
        end = at(name.rest);
    }
    met.push_str(&selector[end..]);
    Some(met)
}

/// Returns the selector of a rule without its pseudo-element.
fn front(rule: &Rule<'_, '_>) -> String {
    let text = rule.text();
    let Some(rest) = rule.pseudo_element().and_then(|name| text.strip_suffix(name)) else {
        return text.to_string();
    };
    let front = rest.trim_end_matches(':');
    let is_whole = front.ends_with(|last: char| !last.is_whitespace() && !"+>~".contains(last));
    [front, if is_whole { "" } else { "*" }].concat()
}

/// Returns the rules of a sheet, by their indices among [`Sheet::rules`], that match no element of any of these pages.
///
/// Pseudo-elements and states such as `:hover` are taken as met. A rule is left out if that cannot be said of a state, as
/// within two `:not()`, and if its selector is in another rule's and has an `&`. Read the sheet with
/// [`Sheet::parse_where`] and a function that returns `true`, so that all group rules apply. The time grows as the rules
/// times the elements.
///
/// ```
/// use simplecss::modern::{html, unused, Options, Sheet, Text};
///
/// let text = Text::sheet("p:hover { top: 0 } b { top: 0 } p::before { top: 0 } @media print { i { top: 0 } }");
/// let sheet = Sheet::parse_where(&text, &Options::default(), |_, _| true).unwrap();
/// let page = html::Page::parse("<p>x").unwrap();
/// let names: Vec<_> = sheet.rules().map(|rule| rule.text()).collect();
/// let found: Vec<_> = unused(&sheet, &[page]).into_iter().map(|index| names[index]).collect();
/// assert_eq!(found, ["b", "i"]);
/// ```
pub fn unused(sheet: &Sheet<'_>, pages: &[Page<'_>]) -> Vec<usize> {
    let asked: Vec<Option<String>> = sheet.rules().map(|rule| with_states_met(&front(&rule))).collect();
    let read = |text: &Option<String>| text.as_deref().and_then(|it| Selector::parse(it).ok()).is_some();
    let mut left: Vec<usize> = (0..asked.len()).filter(|index| read(&asked[*index])).collect();
    for page in pages {
        let tree = page.tree();
        let mut document = page.document(&tree);
        left.retain(|index| {
            let text = asked[*index].as_deref().unwrap_or("");
            let selector = Selector::parse(text).ok();
            let found = selector.map(|it| document.select(&[it], usize::MAX));
            found.map_or(false, |it| it.map_or(false, |matched| matched.is_empty()))
        });
    }
    left
}
