//! Modern CSS: style sheets by CSS Syntax 3 with nested rules, `@layer`, `@media` and `@supports`, and selectors of
//! Level 3 with `:is()`, `:where()`, `:not()`, `:has()` and `:nth-child(2 of .a)` of Level 4.
//!
//! ```
//! use simplecss::modern::{Document, Options, Sheet, Text};
//! use simplecss::tree::Tree;
//!
//! let mut tree = Tree::new();
//! let list = tree.push(None, "ul").unwrap();
//! for _ in 0..3 {
//!     tree.push(Some(list), "li").unwrap();
//! }
//! let mut document = Document::new(&tree);
//!
//! let text = Text::sheet("@media screen { li:nth-child(odd) { color: red } } ul:has(li) { li { color: blue } }");
//! let sheet = Sheet::parse(&text, &Options::default()).unwrap();
//! let mut styles = document.styles(&sheet, 1_000_000).unwrap();
//! let mut color = |index| styles.style(index, (), "color").unwrap().declaration.value;
//! assert_eq!([color(1), color(2), color(3)], ["red", "blue", "red"]);
//! ```
//!
//! What is read is `Send` and `Sync`:
//!
//! ```
//! use simplecss::modern::{Declaration, Document, HtmlSheet, Index, Page, PageStyles, Rule, Selector, Sheet, Styles};
//! use simplecss::modern::{Walk, Winner};
//!
//! fn is_shared<T: Send + Sync>() {}
//! is_shared::<(Sheet, Rule, Index, Walk, Selector, Declaration, Document, Styles, Winner)>();
//! is_shared::<(HtmlSheet, Page<()>, PageStyles<()>)>();
//! is_shared::<(simplecss::StyleSheet, simplecss::tree::Tree)>();
//! ```
//!
//! Elements are of a type of your own, which implements [`Element`], or those of a [`Document`]. An element knows
//! its ancestors and its earlier siblings. `:has()`, a list after `An+B` and `&` in a nested rule ask about others, so
//! a whole page answers them: a [`Document`], or a [`Page`] of your own elements. Where a single element is asked, a
//! selector with one of them is [`NeedsPage`].
use crate::erased::{
    css_cascade, css_explain, css_index, css_matching, css_selectors, css_sheet, css_styles, css_syntax, css_tree,
};
use crate::erased::css_selectors::{needs_page, Matching as _};
use crate::erased::css_tree::html::{html_marked, html_selector};
use crate::rattle_std::alloc::Global;
use crate::{done, tree::Tree, within, TextPos};
use alloc::string::{String, ToString};
use alloc::vec::Vec;
use core::fmt;

pub mod clean;
mod conditions;
pub mod edit;
pub mod html;
pub mod inline;
mod lint;
mod page;
mod text;
mod unused;

pub use crate::erased::css_cascade::{Origin, Rollback, Weight};
pub use crate::erased::css_explain::{Criterion, Explained};
pub use crate::erased::css_index::Keyed;
pub use crate::erased::css_selectors::{Element, Key, NamespacedAttribute, Names, Prefix, Specificity, NO_NAMES};
pub use crate::erased::css_styles::{Own, Source, Winner};
pub use crate::erased::css_syntax::{
    AtRule, Block, Declaration, Declarations, Fault, Item, ListPart, Prelude, Quality,
};
pub use crate::erased::css_tree::html::HtmlMode;
pub use crate::erased::css_tree::languages::is_in_range;
pub use crate::erased::css_tree::NumberedNode as Node;
pub use conditions::{Contrast, Device, Display, Gamut, Medium, Options, Pointer, Scripting, Update};
pub use lint::{lint, lint_style, takes_value, Edit, Finding};
pub use page::{Page, PageStyles};
pub use text::Text;
pub use unused::unused;

/// Why a text is not a list of selectors, and where.
#[derive(Clone, Debug, PartialEq)]
pub struct SelectorError {
    /// The row and the column, from 1 on.
    pub position: TextPos,
    /// What is wrong there.
    pub reason: String,
}

impl SelectorError {
    fn new(text: &str, refusal: css_selectors::Refusal<'_>) -> Self {
        if refusal.why == css_selectors::Why::Memory {
            panic!("memory allocation failed");
        }
        let reason = match refusal.quote() {
            "" => alloc::format!("a blank or the end of the text {}", refusal.why.words()),
            quote => alloc::format!("`{quote}` {}", refusal.why.words()),
        };
        SelectorError { position: refusal.position_in(text), reason }
    }
}

impl fmt::Display for SelectorError {
    fn fmt(&self, f: &mut fmt::Formatter<'_>) -> fmt::Result {
        write!(f, "{}: {}", self.position, self.reason)
    }
}

impl crate::rattle_std::error::Error for SelectorError {}

/// The selector asks more than a single element can answer. It, or one of the rules, has `:has()`, a list after
/// `An+B`, or an `&` in a nested rule. A [`Page`] or a [`Document`] answers.
#[derive(Clone, Copy, Debug, PartialEq, Eq)]
pub struct NeedsPage;

impl fmt::Display for NeedsPage {
    fn fmt(&self, f: &mut fmt::Formatter<'_>) -> fmt::Result {
        f.write_str("`:has()`, a list after `An+B` and `&` in nested rules are answered on a whole page")
    }
}

impl crate::rattle_std::error::Error for NeedsPage {}

/// A selector that asks lists by their numbers, and these lists.
struct Asking<'a> {
    selector: css_selectors::Selector<'a>,
    lists: Lists<'a>,
}

/// Lists that are asked: as they are numbered, or as a document reads these.
enum Lists<'a> {
    Numbered(css_selectors::Numbering<'a>),
    Read(crate::rattle_std::vec::Vec<css_selectors::MarkedList<'a>>),
}

impl<'a> Lists<'a> {
    fn as_slice(&self) -> &[css_selectors::MarkedList<'a>] {
        match self {
            Lists::Numbered(numbering) => numbering.lists(),
            Lists::Read(lists) => lists.as_slice(),
        }
    }
}

/// Returns lists as an HTML document reads them.
fn html_lists<'s>(
    mode: HtmlMode,
    lists: &'s [css_selectors::MarkedList<'_>],
) -> crate::rattle_std::vec::Vec<css_selectors::MarkedList<'s>> {
    crate::rattle_std::vec::Vec(lists.iter().map(|it| done(html_marked(Global, mode, it))).collect())
}

impl<'a> Asking<'a> {
    fn new(selector: css_selectors::Selector<'a>) -> Self {
        let mut numbering = css_selectors::Numbering::new(Global);
        Asking { selector: done(numbering.number(Global, selector)), lists: Lists::Numbered(numbering) }
    }

    fn in_html(&self, mode: HtmlMode) -> Asking<'_> {
        Asking {
            selector: done(html_selector(Global, mode, &self.selector)),
            lists: Lists::Read(html_lists(mode, self.lists.as_slice())),
        }
    }
}

/// A selector.
pub struct Selector<'a> {
    selector: css_selectors::Selector<'a>,
    /// The same for a page, if it needs one.
    asking: Option<Asking<'a>>,
}

impl<'a> Selector<'a> {
    /// Parses one selector.
    pub fn parse(text: &'a str) -> Result<Self, SelectorError> {
        let read = || css_selectors::Selector::parse(Global, within(text)).map(|it| alloc::vec![it]);
        let mut all = Selector::read_twice(text, read)?;
        Ok(all.remove(0))
    }

    /// Returns selectors as they are read. What needs a page is read again, with numbers for its lists.
    fn read_twice(
        text: &'a str,
        read: impl Fn() -> Result<Vec<css_selectors::Selector<'a>>, css_selectors::Refusal<'a>>,
    ) -> Result<Vec<Self>, SelectorError> {
        let read = || read().map_err(|refusal| SelectorError::new(text, refusal));
        let all = read()?;
        let mut again = if all.iter().any(needs_page) { read()? } else { Vec::new() }.into_iter();
        let paired = all.into_iter().map(|selector| {
            let second = again.next().filter(needs_page);
            Selector { selector, asking: second.map(Asking::new) }
        });
        Ok(paired.collect())
    }

    /// Returns the selector for a page, with the lists that it asks.
    fn asking(&self) -> (&css_selectors::Selector<'a>, &[css_selectors::MarkedList<'a>]) {
        match &self.asking {
            Some(it) => (&it.selector, it.lists.as_slice()),
            None => (&self.selector, &[]),
        }
    }

    /// Parses selectors with commas between them. Fails if one of them is not a selector.
    pub fn parse_list(text: &'a str) -> Result<Vec<Self>, SelectorError> {
        Selector::parse_list_in(text, &NO_NAMES)
    }

    /// Parses selectors as `parse_list` does, where these names are declared. Elements are asked for
    /// namespaces by their numbers: [`Element::is_in_namespace`].
    ///
    /// ```
    /// use simplecss::modern::{Document, Names, Prefix, Selector, NO_NAMES};
    /// use simplecss::tree::Tree;
    ///
    /// let mut tree = Tree::new();
    /// let [first, second] = [tree.push(None, "a").unwrap(), tree.push(None, "a").unwrap()];
    /// let mut document = Document::new(&tree);
    /// document.set_namespaces(vec![0, 1]);
    /// let names = Names { prefixes: &[Prefix { name: "svg", number: 1 }], ..NO_NAMES };
    /// let selectors = Selector::parse_list_in("svg|a", &names).unwrap();
    /// let matches = |index| selectors[0].matches(&document.node(index).unwrap());
    /// assert_eq!([matches(first), matches(second)], [Ok(false), Ok(true)]);
    /// assert!(Selector::parse_list("svg|a").is_err());
    /// ```
    pub fn parse_list_in(text: &'a str, names: &Names<'_>) -> Result<Vec<Self>, SelectorError> {
        let read = || css_selectors::Selector::parse_list_in(Global, within(text), names).map(|it| it.0);
        Selector::read_twice(text, read)
    }

    /// Returns the selector as an HTML document in this mode reads it: names of elements and attributes match in any
    /// case, as do the values that the standard lists, such as those of `type`, and in quirks mode ids and classes.
    /// In the tree, all of these are in lower case.
    ///
    /// ```
    /// use simplecss::modern::{Document, HtmlMode, Selector};
    /// use simplecss::tree::Tree;
    ///
    /// let mut tree = Tree::new();
    /// let input = tree.push(None, "input").unwrap();
    /// tree.set_attribute("type", "text").unwrap();
    /// let document = Document::new(&tree);
    /// let selector = Selector::parse("INPUT[Type=TEXT]").unwrap();
    /// let read = selector.in_html(HtmlMode::NoQuirks);
    /// let node = document.node(input).unwrap();
    /// assert_eq!([selector.matches(&node), read.matches(&node)], [Ok(false), Ok(true)]);
    /// ```
    pub fn in_html(&self, mode: HtmlMode) -> Selector<'_> {
        Selector {
            selector: done(html_selector(Global, mode, &self.selector)),
            asking: self.asking.as_ref().map(|it| it.in_html(mode)),
        }
    }

    /// Returns the name of the pseudo-element at the end, if there is one.
    pub fn pseudo_element(&self) -> Option<&str> {
        self.selector.pseudo_element().map(|it| it.element.name.as_str())
    }

    /// Returns the specificity.
    pub fn specificity(&self) -> Specificity {
        self.selector.specificity()
    }

    /// Whether a single element cannot answer: the selector has `:has()` or a list after `An+B`.
    pub fn needs_page(&self) -> bool {
        self.asking.is_some()
    }

    /// Whether the selector matches the element. One with a pseudo-element matches none. Fails if the selector needs
    /// a page: see [`Page::select`] and [`Document::select`].
    ///
    /// ```
    /// use simplecss::modern::{Document, NeedsPage, Selector};
    /// use simplecss::tree::Tree;
    ///
    /// let mut tree = Tree::new();
    /// let list = tree.push(None, "ul").unwrap();
    /// let document = Document::new(&tree);
    /// let matches = |text| Selector::parse(text).unwrap().matches(&document.node(list).unwrap());
    /// assert_eq!([matches("ul"), matches("ol"), matches("ul:not(:has(li))")], [Ok(true), Ok(false), Err(NeedsPage)]);
    /// ```
    pub fn matches<E: Element>(&self, element: &E) -> Result<bool, NeedsPage> {
        self.selector.matches(element).ok_or(NeedsPage)
    }
}

/// Returns the declaration of a property that wins by the rules with these indices and over the element's own.
fn winner_by<'a>(
    rules: &css_styles::StyleRules<'a>,
    matching: &[usize],
    own: Own<'a>,
    property: &str,
) -> Option<Winner<'a>> {
    let mut found = crate::rattle_std::vec::Vec::new(Global);
    done(rules.winners_named(Global, matching, own, &[&[property]], &mut found));
    found.iter().next().copied().flatten()
}

/// Whether a rule may have a declaration of this property, whose name can be written with escapes.
fn may_state(rule: &css_sheet::SheetRule<'_>, property: &str) -> bool {
    rule.declarations().any(|part| match part.item {
        Item::Declaration(it) => it.name.contains('\\') || it.name.eq_ignore_ascii_case(property),
        _ => false,
    })
}

/// Fails if all lists of these selectors have more than `most` answers on so many elements.
fn expect_few(selectors: &[Selector<'_>], elements: usize, most: usize) -> Result<(), TooManyAnswers> {
    let lists: usize = selectors.iter().map(|it| it.asking().1.len()).sum();
    match lists.checked_mul(elements) {
        Some(answers) if answers <= most => Ok(()),
        _ => Err(TooManyAnswers),
    }
}

/// Whether a selector matches an element of a page that is marked with its lists.
fn is_matched<E: Element>(selector: &css_selectors::Selector<'_>, element: &E) -> bool {
    css_selectors::on_marked::matches_counted(selector, element, &mut css_matching::Tests::new())
}

/// Returns the indices at which it is so.
fn places_of(found: &[bool]) -> Vec<usize> {
    (0..found.len()).filter(|it| found[*it]).collect()
}

impl fmt::Debug for Selector<'_> {
    fn fmt(&self, f: &mut fmt::Formatter<'_>) -> fmt::Result {
        fmt::Debug::fmt(&self.selector.to_string(), f)
    }
}

/// Prints the selector as CSSOM serializes it.
impl fmt::Display for Selector<'_> {
    fn fmt(&self, f: &mut fmt::Formatter<'_>) -> fmt::Result {
        fmt::Display::fmt(&self.selector, f)
    }
}

/// Why a sheet is not read.
#[derive(Clone, Copy, Debug, PartialEq)]
pub enum SheetError {
    /// The rules hold more declarations than the limit.
    TooManyDeclarations,
    /// There are more than 1,024 layers.
    TooManyLayers,
}

impl fmt::Display for SheetError {
    fn fmt(&self, f: &mut fmt::Formatter<'_>) -> fmt::Result {
        f.write_str(match self {
            SheetError::TooManyDeclarations => "the rules hold more declarations than the limit",
            SheetError::TooManyLayers => "there are more than 1,024 layers",
        })
    }
}

impl crate::rattle_std::error::Error for SheetError {}

/// The style rules of a sheet, in the order of the cascade.
pub struct Sheet<'a> {
    rules: css_styles::StyleRules<'a>,
    /// Whether each rule needs a page.
    needs_page: Vec<bool>,
}

impl<'a> Sheet<'a> {
    /// Parses a sheet. Fails if its rules hold more declarations than the limit, or if there are more than 1,024
    /// layers.
    ///
    /// ```
    /// use simplecss::modern::{Options, Sheet, Text};
    ///
    /// let text = Text::sheet("@namespace svg 'http://www.w3.org/2000/svg'; svg|a { b: c } html|a { d: e }");
    /// let options = Options { namespaces: &["http://www.w3.org/2000/svg"], ..Options::default() };
    /// let sheet = Sheet::parse(&text, &options).unwrap();
    /// assert_eq!(sheet.rules().map(|rule| rule.text()).collect::<Vec<_>>(), ["svg|a"]);
    /// ```
    pub fn parse(text: &'a Text<'_>, options: &Options<'_>) -> Result<Self, SheetError> {
        Sheet::parse_where(text, options, |keyword, prelude| options.holds(keyword, prelude))
    }

    /// Parses a sheet as [`Sheet::parse`] does, with conditions of your own. `holds` says whether that of a group rule
    /// other than `@layer` holds, by the keyword that its name is and its prelude.
    ///
    /// ```
    /// use simplecss::modern::{Options, Sheet, Text};
    ///
    /// let text = Text::sheet("@container (min-width: 1px) { a { b: c } } @media print { d { e: f } }");
    /// let options = Options::default();
    /// let holds = |keyword: &str, prelude: &str| keyword == "container" || options.holds(keyword, prelude);
    /// let sheet = Sheet::parse_where(&text, &options, holds).unwrap();
    /// assert_eq!(sheet.rules().map(|rule| rule.text()).collect::<Vec<_>>(), ["a"]);
    /// ```
    pub fn parse_where(
        text: &'a Text<'_>,
        options: &Options<'_>,
        holds: impl Fn(&str, &str) -> bool,
    ) -> Result<Self, SheetError> {
        let sheet = css_sheet::Sheet {
            text: within(text),
            origin: css_cascade::Origin::Author,
            around: &[],
            namespaces: options.namespaces,
        };
        match css_styles::StyleRules::read(Global, &[sheet], options.limit, holds) {
            Err(css_sheet::SheetError::TooManyDeclarations) => Err(SheetError::TooManyDeclarations),
            Err(css_sheet::SheetError::TooManyLayers) => Err(SheetError::TooManyLayers),
            outcome => Ok(Sheet::of(done(outcome))),
        }
    }

    fn of(rules: css_styles::StyleRules<'a>) -> Self {
        Sheet { needs_page: rules.as_slice().iter().map(|it| needs_page(&it.selector)).collect(), rules }
    }

    /// Returns the rules, each with one selector.
    pub fn rules(&self) -> impl ExactSizeIterator<Item = Rule<'_, 'a>> {
        let both = self.rules.as_slice().iter().zip(&self.needs_page);
        both.map(|(rule, needs_page)| Rule { rule, needs_page: *needs_page })
    }

    /// Returns the rules with their selectors as an HTML document in this mode reads them: see
    /// [`Selector::in_html`] and [`Document::html_styles`].
    pub fn in_html(&self, mode: HtmlMode) -> HtmlSheet<'_, 'a> {
        let rules = self.rules.as_slice().iter();
        let selectors = rules.map(|rule| done(html_selector(Global, mode, &rule.selector)));
        let selectors = crate::rattle_std::vec::Vec(selectors.collect());
        HtmlSheet { rules: &self.rules, read: Some((selectors, html_lists(mode, self.rules.lists()))) }
    }

    /// Returns the rules with their selectors as they are, as a document in XML reads them.
    fn in_xml(&self) -> HtmlSheet<'_, 'a> {
        HtmlSheet { rules: &self.rules, read: None }
    }

    /// Returns the rules that a single element cannot answer. If there are some, [`Sheet::winning`], [`Sheet::index`]
    /// and [`Sheet::walk`] fail.
    ///
    /// ```
    /// use simplecss::modern::{Options, Sheet, Text};
    ///
    /// let text = Text::sheet("a { b: c; & d { e: f } } g:not(:has(h)) { i: j }");
    /// let sheet = Sheet::parse(&text, &Options::default()).unwrap();
    /// let texts: Vec<_> = sheet.needing_page().map(|rule| rule.text()).collect();
    /// assert_eq!(texts, ["& d", "g:not(:has(h))"]);
    /// assert!(sheet.index().is_err());
    /// ```
    pub fn needing_page(&self) -> impl Iterator<Item = Rule<'_, 'a>> {
        self.rules().filter(|rule| rule.needs_page)
    }

    /// Returns the rules, if single elements can answer all of them.
    fn of_elements(&self) -> Result<&[css_sheet::SheetRule<'a>], NeedsPage> {
        if self.needs_page.contains(&true) {
            return Err(NeedsPage);
        }
        Ok(self.rules.as_slice())
    }

    /// Returns the declaration of a property that wins on the element. It wins by importance, by layers, by
    /// specificity, and by where it stands. Shorthands are not expanded. Fails if one of the rules needs a page: see
    /// [`Page::styles`] and [`Document::styles`].
    pub fn winning<E: Element>(&self, element: &E, property: &str) -> Result<Option<Declaration<'a>>, NeedsPage> {
        let mut matching = Vec::new();
        for (index, rule) in self.of_elements()?.iter().enumerate() {
            if may_state(rule, property) && rule.selector.matches(element).ok_or(NeedsPage)? {
                matching.push(index);
            }
        }
        Ok(winner_by(&self.rules, &matching, ().into(), property).map(|it| it.declaration))
    }

    /// Makes an index of the rules, for single elements. Fails if one of the rules needs a page: see
    /// [`Page::styles`].
    pub fn index(&self) -> Result<Index<'_, 'a>, NeedsPage> {
        Ok(Index {
            index: done(css_index::SelectorIndex::new(Global, self.rules.as_slice())).ok_or(NeedsPage)?,
            indices: crate::rattle_std::vec::Vec::new(Global),
        })
    }

    /// Makes an index of the rules for a walk along a tree. Fails if one of the rules needs a page: see
    /// [`Page::styles`].
    pub fn walk(&self) -> Result<Walk<'_, 'a>, NeedsPage> {
        Ok(Walk {
            walk: done(css_index::SelectorWalk::new(Global, self.rules.as_slice())).ok_or(NeedsPage)?,
            tried: crate::rattle_std::vec::Vec::new(Global),
            indices: crate::rattle_std::vec::Vec::new(Global),
        })
    }
}

/// Selectors and lists as an HTML document reads them.
type ReadSelectors<'s> = (
    crate::rattle_std::vec::Vec<css_selectors::Selector<'s>>,
    crate::rattle_std::vec::Vec<css_selectors::MarkedList<'s>>,
);

/// The style rules of a sheet, with their selectors as a document reads them.
pub struct HtmlSheet<'s, 'a> {
    rules: &'s css_styles::StyleRules<'a>,
    /// The selectors and their lists, if they are not those of the rules.
    read: Option<ReadSelectors<'s>>,
}

/// A style rule with one selector.
#[derive(Clone, Copy)]
pub struct Rule<'s, 'a> {
    rule: &'s css_sheet::SheetRule<'a>,
    needs_page: bool,
}

impl<'a> Rule<'_, 'a> {
    /// Returns the text of the selector, with its pseudo-element.
    pub fn text(&self) -> &'a str {
        self.rule.text
    }

    /// Returns the name of the pseudo-element, as written, if there is one.
    pub fn pseudo_element(&self) -> Option<&'a str> {
        self.rule.pseudo_element
    }

    /// Returns the specificity.
    pub fn specificity(&self) -> Specificity {
        self.rule.specificity()
    }

    /// Whether a single element cannot answer: the selector has `:has()`, a list after `An+B` or an `&`.
    pub fn needs_page(&self) -> bool {
        self.needs_page
    }

    /// Whether the rule applies to the element. A rule with a pseudo-element applies to none. Fails if the rule needs
    /// a page.
    pub fn matches<E: Element>(&self, element: &E) -> Result<bool, NeedsPage> {
        let found = self.rule.selector.matches(element).ok_or(NeedsPage)?;
        Ok(self.rule.pseudo_element.is_none() && found)
    }

    /// Returns the declarations, with what is skipped between them.
    pub fn declarations(&self) -> Declarations<'a> {
        self.rule.declarations()
    }
}

/// An index of the rules of a sheet: which match an element, without testing each.
pub struct Index<'s, 'a> {
    index: css_index::SelectorIndex<'s, 'a>,
    indices: crate::rattle_std::vec::Vec<usize>,
}

impl Index<'_, '_> {
    /// Returns the indices of the rules whose selectors, without pseudo-elements, match the element, in order.
    pub fn matching<E: Keyed>(&mut self, element: &E) -> &[usize] {
        done(self.index.matching(element, &mut self.indices));
        &self.indices
    }
}

/// An index of the rules of a sheet for a walk along a tree: it finds what [`Index`] finds, and leaves out the
/// rules that need an ancestor or a parent which an element lacks. Enter each element before its children, and leave
/// it after them:
///
/// ```
/// use simplecss::modern::{Document, Options, Sheet, Text};
/// use simplecss::tree::Tree;
///
/// let mut tree = Tree::new();
/// let list = tree.push(None, "ul").unwrap();
/// let item = tree.push(Some(list), "li").unwrap();
/// let document = Document::new(&tree);
/// let text = Text::sheet("li { margin: 0 } ul > li { color: red } ol li { color: blue }");
/// let sheet = Sheet::parse(&text, &Options::default()).unwrap();
///
/// let mut walk = sheet.walk().unwrap();
/// walk.enter(&document.node(list).unwrap());
/// assert_eq!(walk.matching(&document.node(item).unwrap()), [0, 1]);
/// walk.leave();
/// ```
pub struct Walk<'s, 'a> {
    walk: css_index::SelectorWalk<'s, 'a>,
    tried: crate::rattle_std::vec::Vec<usize>,
    indices: crate::rattle_std::vec::Vec<usize>,
}

impl Walk<'_, '_> {
    /// Opens an element, whose parent is the one that was opened last.
    pub fn enter<E: Keyed>(&mut self, element: &E) {
        done(self.walk.enter(element))
    }

    /// Closes the element that was opened last, if one is open.
    pub fn leave(&mut self) {
        self.walk.leave()
    }

    /// Returns what [`Index::matching`] returns for an element whose ancestors are the open elements.
    pub fn matching<E: Keyed>(&mut self, element: &E) -> &[usize] {
        let mut tests = css_matching::Tests::new();
        done(self.walk.matching(element, &mut self.tried, &mut self.indices, &mut tests));
        &self.indices
    }
}

/// Returns the declarations of a `style` attribute, with what is skipped between them.
///
/// ```
/// use simplecss::modern::{declarations, Item};
///
/// let found: Vec<_> = declarations("fill: url(a;b); bad; stroke: red !IMPORTANT")
///     .filter_map(|part| match part.item {
///         Item::Declaration(it) => Some((it.name, it.value, it.important)),
///         _ => None,
///     })
///     .collect();
/// assert_eq!(found, [("fill", "url(a;b)", false), ("stroke", "red", true)]);
/// ```
pub fn declarations(text: &str) -> Declarations<'_> {
    Declarations::new(within(text))
}

/// Returns the value of a name or a string as it is after escapes.
pub fn decode(text: &str) -> String {
    done(css_syntax::decode(Global, within(text))).as_str().to_string()
}

/// Returns the value of a declaration with what closes it where the end of the text did, unless it is invalid.
///
/// ```
/// use simplecss::modern::closed_value;
///
/// assert_eq!(closed_value("url(x").as_deref(), Some("url(x)"));
/// assert_eq!(closed_value("x)"), None);
/// ```
pub fn closed_value(value: &str) -> Option<String> {
    done(css_syntax::closed_value(Global, within(value))).map(|it| it.as_str().to_string())
}

/// There are more answers of lists of selectors than the limit.
#[derive(Clone, Copy, Debug, PartialEq)]
pub struct TooManyAnswers;

impl fmt::Display for TooManyAnswers {
    fn fmt(&self, f: &mut fmt::Formatter<'_>) -> fmt::Result {
        f.write_str("there are more answers of lists of selectors than the limit")
    }
}

impl crate::rattle_std::error::Error for TooManyAnswers {}

/// A tree whose siblings are counted: elements that selectors match.
pub struct Document<'p, 't>(css_tree::NumberedTree<'p, 't>);

impl<'p, 't> Document<'p, 't> {
    /// Counts the siblings of a tree. Panics if it has 2^32 elements or more.
    pub fn new(tree: &'p Tree<'t>) -> Self {
        match css_tree::NumberedTree::new(Global, &tree.0) {
            Ok(tree) => Document(tree),
            Err(_) => panic!("memory allocation failed, or the tree has 2^32 elements or more"),
        }
    }

    /// Says that the element at an index has a text that is not empty, which `:empty` tests.
    pub fn set_text(&mut self, index: usize) {
        self.0.set_text(index);
    }

    /// Says which element `:scope` is, by its index. Without one it is the root.
    ///
    /// ```
    /// use simplecss::modern::{Document, Selector};
    /// use simplecss::tree::Tree;
    ///
    /// let mut tree = Tree::new();
    /// let list = tree.push(None, "ul").unwrap();
    /// let item = tree.push(Some(list), "li").unwrap();
    /// let link = tree.push(Some(item), "a").unwrap();
    /// let mut document = Document::new(&tree);
    /// document.set_scope(Some(item));
    /// let selector = Selector::parse(":scope > a").unwrap();
    /// assert_eq!(selector.matches(&document.node(link).unwrap()), Ok(true));
    /// ```
    pub fn set_scope(&mut self, scope: Option<usize>) {
        self.0.set_scope(scope);
    }

    /// Says which namespaces the elements are in, each by its number. The number of no namespace is 0, and
    /// elements after the last of these are in none.
    pub fn set_namespaces(&mut self, namespaces: Vec<usize>) {
        done(self.0.set_namespaces(Global, crate::rattle_std::vec::Vec(namespaces)));
    }

    /// Names the attributes in namespaces of each element. The tree has the others. Elements after the last of
    /// these have none.
    ///
    /// ```
    /// use simplecss::modern::{Document, NamespacedAttribute, Selector};
    /// use simplecss::tree::Tree;
    ///
    /// let mut tree = Tree::new();
    /// let link = tree.push(None, "a").unwrap();
    /// let mut document = Document::new(&tree);
    /// let href = NamespacedAttribute { namespace: 1, name: "href", value: "#b" };
    /// document.set_namespaced_attributes(vec![vec![href]]);
    /// let matches = |text| Selector::parse(text).unwrap().matches(&document.node(link).unwrap());
    /// assert_eq!([matches("[*|href='#b']"), matches("[href]")], [Ok(true), Ok(false)]);
    /// ```
    pub fn set_namespaced_attributes(&mut self, attributes: Vec<Vec<NamespacedAttribute<'t>>>) {
        let each = attributes.into_iter().map(crate::rattle_std::vec::Vec);
        self.0.set_namespaced_attributes(crate::rattle_std::vec::Vec(each.collect()));
    }

    /// Names states, such as `target` or `dir(ltr)`, each with whether each element is in it. Names of states
    /// that every tree has are ignored, such as `hover`. They replace states that were named before.
    ///
    /// ```
    /// use simplecss::modern::{Document, Selector};
    /// use simplecss::tree::Tree;
    ///
    /// let mut tree = Tree::new();
    /// let list = tree.push(None, "ul").unwrap();
    /// let item = tree.push(Some(list), "li").unwrap();
    /// let mut document = Document::new(&tree);
    /// document.set_states(vec![("target", vec![false, true])]);
    /// let selector = Selector::parse("ul > :target").unwrap();
    /// assert_eq!(selector.matches(&document.node(item).unwrap()), Ok(true));
    /// ```
    pub fn set_states(&mut self, states: Vec<(&'t str, Vec<bool>)>) {
        let named = states.into_iter().map(|(name, elements)| css_tree::NamedState {
            name,
            elements: crate::rattle_std::vec::Vec(elements),
        });
        self.0.set_states(crate::rattle_std::vec::Vec(named.collect()));
    }

    /// Makes the tree that of an HTML document: `:checked`, `:disabled`, `:enabled`, `:required`, `:optional`,
    /// `:read-write`, `:read-only`, `:placeholder-shown`, `:default`, `:indeterminate`, `:open` and `:defined` match
    /// as attributes say. Names of elements and attributes are in lower case.
    ///
    /// ```
    /// use simplecss::modern::{Document, Selector};
    /// use simplecss::tree::Tree;
    ///
    /// let mut tree = Tree::new();
    /// let set = tree.push(None, "fieldset").unwrap();
    /// tree.set_attribute("disabled", "").unwrap();
    /// let input = tree.push(Some(set), "input").unwrap();
    /// let mut document = Document::new(&tree);
    /// document.set_html();
    /// let selector = Selector::parse("input:disabled").unwrap();
    /// assert_eq!(selector.matches(&document.node(input).unwrap()), Ok(true));
    /// ```
    pub fn set_html(&mut self) {
        done(self.0.set_html(Global));
    }

    /// Answers lists for each element, in place of those that were answered before.
    fn answer(&mut self, lists: &[css_selectors::MarkedList<'_>], most: usize) -> Result<(), TooManyAnswers> {
        match self.0.mark(Global, lists, most) {
            Err(css_tree::MarkingError::TooManyAnswers) => Err(TooManyAnswers),
            outcome => {
                done(outcome);
                Ok(())
            }
        }
    }

    /// Returns the indices of the elements that match, in order. One of the selectors matches each. Each list of
    /// `:has()` and after `An+B` is answered once for each element.
    ///
    /// Fails if there are more than `most` answers, one for each of these lists and each element.
    ///
    /// ```
    /// use simplecss::modern::{Document, Selector};
    /// use simplecss::tree::Tree;
    ///
    /// let mut tree = Tree::new();
    /// let list = tree.push(None, "ul").unwrap();
    /// let item = tree.push(Some(list), "li").unwrap();
    /// tree.push(Some(item), "a").unwrap();
    /// let mut document = Document::new(&tree);
    /// let selectors = Selector::parse_list("ul:has(> li > a), li:has(> li)").unwrap();
    /// assert_eq!(document.select(&selectors, 1_000_000).unwrap(), [list]);
    /// ```
    pub fn select(&mut self, selectors: &[Selector<'_>], most: usize) -> Result<Vec<usize>, TooManyAnswers> {
        expect_few(selectors, self.0.len(), most)?;
        let mut found = alloc::vec![false; self.0.len()];
        for (selector, lists) in selectors.iter().map(Selector::asking) {
            self.answer(lists, most)?;
            for (index, one) in found.iter_mut().enumerate() {
                *one = *one || self.0.node(index).map_or(false, |node| is_matched(selector, &node));
            }
        }
        Ok(places_of(&found))
    }

    /// Returns the element at an index, if there is one.
    pub fn node(&self, index: usize) -> Option<Node<'_, 'p, 't>> {
        self.0.node(index)
    }

    /// Returns a walk along the document that finds what wins. Lists of selectors are answered first, each once for each
    /// element: those that `&` stands for in nested rules, those of `:has()`, and those after `An+B`.
    ///
    /// Fails if there are more than `most` answers, one for each list and each element.
    ///
    /// ```
    /// use simplecss::modern::{Document, Options, Own, Sheet, Source, Text};
    /// use simplecss::tree::Tree;
    ///
    /// let mut tree = Tree::new();
    /// let list = tree.push(None, "ul").unwrap();
    /// let item = tree.push(Some(list), "li").unwrap();
    /// let mut document = Document::new(&tree);
    /// let text = Text::sheet("li { color: red; margin: 0 } ul:has(li) { > li { color: blue } }");
    /// let sheet = Sheet::parse(&text, &Options::default()).unwrap();
    ///
    /// let mut styles = document.styles(&sheet, 1_000_000).unwrap();
    /// let style = Text::style("margin: 1px");
    /// let found = styles.winners(item, &style).iter().map(|it| (it.declaration.value, it.source));
    /// assert_eq!(found.collect::<Vec<_>>(), [("blue", Source::Rule(1)), ("1px", Source::Style)]);
    ///
    /// let own = Own { style: "", presentation: "color: red; margin: 2px; padding: 3px" };
    /// assert_eq!(styles.style(item, own, "margin").unwrap().declaration.value, "0");
    /// assert_eq!(styles.style(item, own, "padding").unwrap().source, Source::Presentation);
    ///
    /// let named = ["margin-left", "margin"];
    /// assert_eq!(styles.style_named(item, &style, &named).unwrap().declaration.value, "1px");
    /// ```
    pub fn styles<'d, 's: 'd, 'a>(
        &'d mut self,
        sheet: &'s Sheet<'a>,
        most: usize,
    ) -> Result<Styles<'d, 'p, 't, 's, 'a, 'a>, TooManyAnswers> {
        self.answer(sheet.rules.lists(), most)?;
        Ok(Styles::new(&self.0, &sheet.rules, None))
    }

    /// Returns a walk as [`Document::styles`] does, where selectors are read as in an HTML document.
    ///
    /// ```
    /// use simplecss::modern::{Document, HtmlMode, Options, Sheet, Text};
    /// use simplecss::tree::Tree;
    ///
    /// let mut tree = Tree::new();
    /// let list = tree.push(None, "ul").unwrap();
    /// let item = tree.push(Some(list), "li").unwrap();
    /// let mut document = Document::new(&tree);
    /// let text = Text::sheet("UL { color: red; &:has(LI) { color: blue } }");
    /// let sheet = Sheet::parse(&text, &Options::default()).unwrap();
    /// assert!(document.styles(&sheet, 1_000_000).unwrap().style(list, (), "color").is_none());
    ///
    /// let sheet = sheet.in_html(HtmlMode::NoQuirks);
    /// let mut styles = document.html_styles(&sheet, 1_000_000).unwrap();
    /// assert_eq!(styles.style(list, (), "color").unwrap().declaration.value, "blue");
    /// assert_eq!(styles.matching(list), [0, 1]);
    /// assert!(styles.style(item, (), "color").is_none());
    /// ```
    pub fn html_styles<'d, 'h: 'd, 's, 'a>(
        &'d mut self,
        sheet: &'h HtmlSheet<'s, 'a>,
        most: usize,
    ) -> Result<Styles<'d, 'p, 't, 'h, 'a, 's>, TooManyAnswers> {
        let Some((selectors, lists)) = &sheet.read else {
            self.answer(sheet.rules.lists(), most)?;
            return Ok(Styles::new(&self.0, sheet.rules, None));
        };
        self.answer(lists.as_slice(), most)?;
        Ok(Styles::new(&self.0, sheet.rules, Some(selectors.as_slice())))
    }
}

/// A walk along a document that finds which declarations win. Elements may be asked in any order, and those in the
/// order of the document take the least time. While it lives the document does not change:
///
/// ```compile_fail,E0499
/// use simplecss::modern::{Document, Options, Sheet, Text};
/// use simplecss::tree::Tree;
///
/// let mut tree = Tree::new();
/// tree.push(None, "a").unwrap();
/// let mut document = Document::new(&tree);
/// let text = Text::sheet("a:not(:has(:empty)) { b: c }");
/// let sheet = Sheet::parse(&text, &Options::default()).unwrap();
/// let mut styles = document.styles(&sheet, 1_000_000).unwrap();
/// document.set_text(0);
/// assert!(styles.style(0, (), "b").is_some());
/// ```
pub struct Styles<'d, 'p, 't, 's, 'a, 'w> {
    page: &'d css_tree::NumberedTree<'p, 't>,
    rules: &'s css_styles::StyleRules<'a>,
    /// The selectors of the rules, if they are read in another way.
    selectors: Option<&'s [css_selectors::Selector<'w>]>,
    /// What finds winners, once they are asked for.
    styles: Option<css_styles::Styles<'d, 'a, 'w, 'p, 't>>,
    found: crate::rattle_std::vec::Vec<Winner<'a>>,
    /// What finds rules, once they are asked for.
    walk: Option<css_tree::TreeWalk<'d, 'w, 'p, 't>>,
    indices: crate::rattle_std::vec::Vec<usize>,
}

/// What finds winners, and those that it found.
type Searching<'f, 'd, 'a, 'w, 'p, 't> =
    (&'f mut css_styles::Styles<'d, 'a, 'w, 'p, 't>, &'f mut crate::rattle_std::vec::Vec<Winner<'a>>);

impl<'d, 'p, 't, 's: 'd, 'a: 'w, 'w> Styles<'d, 'p, 't, 's, 'a, 'w> {
    fn new(
        page: &'d css_tree::NumberedTree<'p, 't>,
        rules: &'s css_styles::StyleRules<'a>,
        selectors: Option<&'s [css_selectors::Selector<'w>]>,
    ) -> Self {
        Styles {
            page,
            rules,
            selectors,
            styles: None,
            found: crate::rattle_std::vec::Vec::new(Global),
            walk: None,
            indices: crate::rattle_std::vec::Vec::new(Global),
        }
    }

    /// Returns what finds winners, which is made when it is asked first.
    fn finding(&mut self) -> Searching<'_, 'd, 'a, 'w, 'p, 't> {
        let (page, rules, selectors) = (self.page, self.rules, self.selectors);
        let styles = self.styles.get_or_insert_with(|| {
            done(match selectors {
                None => css_styles::Styles::new(Global, rules, page),
                Some(selectors) => css_styles::Styles::in_html(Global, rules, selectors, page),
            })
        });
        (styles, &mut self.found)
    }

    /// Returns the indices of the rules that match an element, in order. A rule with a pseudo-element is one of them if
    /// the selector before that matches. Panics if there is no element at the index.
    pub fn matching(&mut self, index: usize) -> &[usize] {
        self.expect(index);
        let (page, rules, selectors) = (self.page, self.rules, self.selectors);
        let walk = self.walk.get_or_insert_with(|| {
            done(match selectors {
                None => rules.walk(Global, page),
                Some(selectors) => rules.walk_in_html(Global, selectors, page),
            })
        });
        done(walk.matching(index, &mut self.indices, &mut css_matching::Tests::new()));
        &self.indices
    }

    /// Returns the declarations that win on the element at an index that has these of its own: for each property the
    /// one that no other beats. A [`Text`] is that of its `style` attribute, and `()` stands for none. Shorthands are not
    /// expanded. Panics if there is no such element.
    pub fn winners(&mut self, index: usize, own: impl Into<Own<'a>>) -> &[Winner<'a>] {
        let mut tests = css_matching::Tests::new();
        self.expect(index);
        let own = short(own.into());
        let (styles, found) = self.finding();
        done(styles.winners(index, own, found, &mut tests));
        &self.found
    }

    /// Returns the declaration of a property that wins on it, if there is one.
    pub fn style(&mut self, index: usize, own: impl Into<Own<'a>>, property: &str) -> Option<Winner<'a>> {
        self.style_named(index, own, &[property])
    }

    /// Returns the declaration that wins of all that have one of these names, if there is one, such as of a longhand
    /// and the shorthands that set it.
    pub fn style_named(
        &mut self,
        index: usize,
        own: impl Into<Own<'a>>,
        names: &[&str],
    ) -> Option<Winner<'a>> {
        let mut tests = css_matching::Tests::new();
        let mut found = crate::rattle_std::vec::Vec::new(Global);
        self.expect(index);
        let own = short(own.into());
        let (styles, _) = self.finding();
        done(styles.winners_named(index, own, &[names], &mut found, &mut tests));
        found.iter().next().copied().flatten()
    }

    /// Returns all declarations that apply to the element and have one of these names, the strongest first, each with
    /// the criterion of the cascade by which it loses to the one before it.
    ///
    /// ```
    /// use simplecss::modern::{Criterion, Document, Options, Sheet, Text};
    /// use simplecss::tree::Tree;
    ///
    /// let mut tree = Tree::new();
    /// let list = tree.push(None, "ul").unwrap();
    /// let mut document = Document::new(&tree);
    /// let text = Text::sheet("ul { color: red } :is(ul) { color: blue }");
    /// let sheet = Sheet::parse(&text, &Options::default()).unwrap();
    /// let mut styles = document.styles(&sheet, 1_000_000).unwrap();
    /// let style = Text::style("color: lime");
    /// let found = styles.explain(list, &style, &["color"]);
    /// let values: Vec<_> = found.iter().map(|it| (it.winner.declaration.value, it.lost_by)).collect();
    /// let (style, order) = (Some(Criterion::StyleAttribute), Some(Criterion::Order));
    /// assert_eq!(values, [("lime", None), ("blue", style), ("red", order)]);
    /// ```
    pub fn explain(&mut self, index: usize, own: impl Into<Own<'a>>, names: &[&str]) -> Vec<Explained<'a>> {
        self.matching(index);
        let (rules, own) = (self.rules.as_slice(), short(own.into()));
        let found = css_explain::explain(Global, rules, &self.indices, own, names);
        done(found).iter().copied().collect()
    }

    /// Panics if there is no element at an index.
    fn expect(&self, index: usize) {
        assert!(index < self.page.len(), "there is no element {index}");
    }
}

/// Returns the declarations, whose texts are read.
fn short(own: Own<'_>) -> Own<'_> {
    Own { style: within(own.style), presentation: within(own.presentation) }
}
