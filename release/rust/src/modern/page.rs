//! Pages of elements of a person's own type, on which lists of selectors are answered.
use super::{short, Element, Keyed, NamespacedAttribute, Own, Selector, Sheet, TooManyAnswers, Winner};
use crate::done;
use crate::erased::css_matching::Tests;
use crate::erased::css_selectors::on_marked::{matches_any, meets};
use crate::erased::css_selectors::{
    self, Combinator, Complex, ListTest, MarkedList, Part, Progression,
};
use crate::erased::{css_index, css_styles};
use crate::rattle_std::alloc::Global;
use crate::rattle_std::vec::Vec as ProvedVec;
use crate::tree::NoElement;
use alloc::vec;
use alloc::vec::Vec;

/// Where an element is.
struct Place {
    parent: Option<usize>,
    previous: Option<usize>,
    last_child: Option<usize>,
    depth: usize,
}

/// A page: elements of your own type, with their places. It answers what one element cannot: `:has()`, a list
/// after `An+B`, and `&` in nested rules.
///
/// Add each element after its parent and its earlier siblings, as in the order of the document. Parents and
/// siblings are those of the page, and [`Element::parent`] and [`Element::previous_sibling`] are not asked. All else
/// is, the numbers of siblings too.
///
/// ```
/// use simplecss::modern::{Document, Options, Page, Selector, Sheet, Text};
/// use simplecss::tree::Tree;
///
/// // Elements of any type that implements `Element` and `Keyed`: here those of a ready tree.
/// let mut tree = Tree::new();
/// let list = tree.push(None, "ul").unwrap();
/// let item = tree.push(Some(list), "li").unwrap();
/// let link = tree.push(Some(item), "a").unwrap();
/// let document = Document::new(&tree);
/// let mut page = Page::new();
/// for (parent, index) in [(None, list), (Some(list), item), (Some(item), link)] {
///     page.push(parent, document.node(index).unwrap()).unwrap();
/// }
///
/// let selectors = Selector::parse_list("ul:has(> li > a), li:has(> li)").unwrap();
/// assert_eq!(page.select(&selectors, 1_000_000).unwrap(), [list]);
///
/// let text = Text::sheet("ul { > li { color: red; & a { color: blue } } }");
/// let sheet = Sheet::parse(&text, &Options::default()).unwrap();
/// let mut styles = page.styles(&sheet, 1_000_000).unwrap();
/// assert!(styles.style(list, (), "color").is_none());
/// assert_eq!(styles.style(item, (), "color").unwrap().declaration.value, "red");
/// assert_eq!(styles.style(link, (), "color").unwrap().declaration.value, "blue");
///
/// // `:has()` cannot be nested, also not by way of `&`.
/// let text = Text::sheet("li:has(a) { ul:has(&) { color: red } } li { ul:has(&) { margin: 0 } }");
/// let sheet = Sheet::parse(&text, &Options::default()).unwrap();
/// let mut styles = page.styles(&sheet, 1_000_000).unwrap();
/// assert!(styles.style(list, (), "color").is_none());
/// assert!(styles.style(list, (), "margin").is_some());
/// ```
pub struct Page<E> {
    elements: Vec<E>,
    places: Vec<Place>,
    last_root: Option<usize>,
}

impl<E> Default for Page<E> {
    fn default() -> Self {
        Page::new()
    }
}

impl<E> Page<E> {
    /// Creates a page without elements.
    pub fn new() -> Self {
        Page { elements: Vec::new(), places: Vec::new(), last_root: None }
    }

    /// Adds an element and returns its index. It is the last child of the parent, or a root without one. Fails if there
    /// is no such parent, and the page is unchanged.
    pub fn push(&mut self, parent: Option<usize>, element: E) -> Result<usize, NoElement> {
        let index = self.elements.len();
        let (last, depth) = match parent {
            None => (&mut self.last_root, 0),
            Some(parent) => {
                let above = self.places.get_mut(parent).ok_or(NoElement)?;
                (&mut above.last_child, above.depth + 1)
            }
        };
        let previous = last.replace(index);
        self.elements.push(element);
        self.places.push(Place { parent, previous, last_child: None, depth });
        Ok(index)
    }

    /// Returns the number of elements.
    pub fn len(&self) -> usize {
        self.elements.len()
    }

    /// Whether there is no element.
    pub fn is_empty(&self) -> bool {
        self.elements.is_empty()
    }

    /// Returns the element at an index, if there is one.
    pub fn element(&self, index: usize) -> Option<&E> {
        self.elements.get(index)
    }

    /// Returns the index to which one step of a combinator leads back.
    fn step(&self, combinator: Combinator, index: usize) -> Option<usize> {
        match combinator {
            Combinator::Descendant | Combinator::Child => self.places[index].parent,
            Combinator::Adjacent | Combinator::Sibling => self.places[index].previous,
        }
    }

    /// Returns which elements the combinator relates to a marked one, from the last to the first.
    fn preceding(&self, combinator: Combinator, marks: &[bool]) -> Vec<bool> {
        let repeats = matches!(combinator, Combinator::Descendant | Combinator::Sibling);
        let mut found = vec![false; self.len()];
        for index in (0..self.len()).rev() {
            if marks[index] || repeats && found[index] {
                if let Some(before) = self.step(combinator, index) {
                    found[before] = true;
                }
            }
        }
        found
    }

    /// Returns which marked elements have a number among their marked siblings that is one of `An+B`.
    fn numbered(&self, progression: Progression, order: impl Iterator<Item = usize>, marks: &[bool]) -> Vec<bool> {
        let (mut counts, mut found) = (vec![0_u64; self.len() + 1], vec![false; self.len()]);
        for index in order.filter(|it| marks[*it]) {
            let count = &mut counts[self.places[index].parent.map_or(0, |it| it + 1)];
            *count += 1;
            found[index] = progression.contains(*count);
        }
        found
    }
}

impl<E: Element> Page<E> {
    /// Returns the indices of the elements that match, in order. One of the selectors matches each. Each list of
    /// `:has()` and after `An+B` is answered for all elements at once, where each part is tested on each at most once.
    ///
    /// Fails if there are more than `most` answers, one for each of these lists and each element.
    pub fn select(&self, selectors: &[Selector<'_>], most: usize) -> Result<Vec<usize>, TooManyAnswers> {
        super::expect_few(selectors, self.len(), most)?;
        let mut found = vec![false; self.len()];
        for (selector, lists) in selectors.iter().map(Selector::asking) {
            let lists = self.answers(lists, most)?;
            for (index, one) in found.iter_mut().enumerate() {
                *one = *one || super::is_matched(selector, &Spot { page: self, lists: &lists, index });
            }
        }
        Ok(super::places_of(&found))
    }

    /// Returns a walk along the page that finds what wins. Lists of selectors are answered first, for all elements at
    /// once, where each part is tested on each at most once: those that `&` stands for in nested rules, those of
    /// `:has()`, and those after `An+B`.
    ///
    /// Fails if there are more than `most` answers, one for each list and each element.
    pub fn styles<'p, 's, 'a>(
        &'p self,
        sheet: &'s Sheet<'a>,
        most: usize,
    ) -> Result<PageStyles<'p, 's, 'a, E>, TooManyAnswers> {
        Ok(PageStyles {
            page: self,
            lists: self.answers(sheet.rules.lists(), most)?,
            rules: &sheet.rules,
            walk: done(css_index::SelectorWalk::on_marked(Global, sheet.rules.as_slice())),
            open: Vec::new(),
            last: None,
            tried: ProvedVec::new(Global),
            indices: ProvedVec::new(Global),
        })
    }

    /// Answers lists for each element, one after another: each asks only those before it. Within `:has()` no other
    /// `:has()` holds, also none that an `&` reaches, so from the first one on lists are answered twice.
    fn answers(&self, lists: &[MarkedList<'_>], most: usize) -> Result<Vec<Vec<bool>>, TooManyAnswers> {
        match lists.len().checked_mul(self.len()) {
            Some(count) if count <= most => {}
            _ => return Err(TooManyAnswers),
        }
        let (mut own, mut inside, mut differ) = (Vec::new(), Vec::new(), false);
        for list in lists {
            let within = self.answer(&inside, list);
            let (one, within) = match list {
                MarkedList::Tested(ListTest::Has, _) => {
                    differ = true;
                    (within, vec![false; self.len()])
                }
                _ if differ => (self.answer(&own, list), within),
                _ => (within.clone(), within),
            };
            own.push(one);
            inside.push(within);
        }
        Ok(own)
    }

    /// Returns for each element whether it is in a list.
    fn answer(&self, lists: &[Vec<bool>], list: &MarkedList<'_>) -> Vec<bool> {
        match list {
            MarkedList::Matched(selectors) => self.each(lists, |spot| is_any(selectors, spot)),
            MarkedList::Tested(ListTest::Has, list) => self.has(lists, list),
            MarkedList::Tested(ListTest::NthChild(progression), list) => {
                self.numbered(*progression, 0..self.len(), &self.matched(lists, list))
            }
            MarkedList::Tested(ListTest::NthLastChild(progression), list) => {
                self.numbered(*progression, (0..self.len()).rev(), &self.matched(lists, list))
            }
        }
    }

    /// Returns for each element whether this holds.
    fn each(&self, lists: &[Vec<bool>], holds: impl Fn(&Spot<'_, E>) -> bool) -> Vec<bool> {
        (0..self.len()).map(|index| holds(&Spot { page: self, lists, index })).collect()
    }

    /// Returns which elements one of the complex selectors matches.
    fn matched(&self, lists: &[Vec<bool>], list: &[Complex<'_>]) -> Vec<bool> {
        self.each(lists, |spot| matches_any(list, spot, &mut Tests::new()))
    }

    /// Returns which elements `:has()` with this list holds of.
    fn has(&self, lists: &[Vec<bool>], list: &[Complex<'_>]) -> Vec<bool> {
        let mut all = vec![false; self.len()];
        for selector in list.iter().filter(|it| !it.parts.is_empty()) {
            let found = self.leading(lists, &selector.parts);
            all.iter_mut().zip(found).for_each(|(one, other)| *one |= other);
        }
        all
    }

    /// Returns after which elements there are others for all parts of a relative selector, from the last part
    /// to the first.
    fn leading(&self, lists: &[Vec<bool>], parts: &[Part<'_>]) -> Vec<bool> {
        let mut marks = vec![true; self.len()];
        for part in parts.iter().rev() {
            let met = |index| meets(part, &Spot { page: self, lists, index }, &mut Tests::new());
            (0..self.len()).for_each(|index| marks[index] = marks[index] && met(index));
            marks = self.preceding(part.combinator, &marks);
        }
        marks
    }
}

/// Whether one of the selectors matches.
fn is_any<E: Element>(selectors: &[css_selectors::Selector<'_>], spot: &Spot<'_, E>) -> bool {
    selectors.iter().any(|it| super::is_matched(it, spot))
}

/// An element of a page on which lists are answered.
struct Spot<'m, E> {
    page: &'m Page<E>,
    lists: &'m [Vec<bool>],
    index: usize,
}

impl<'m, E> Spot<'m, E> {
    fn own(&self) -> &'m E {
        &self.page.elements[self.index]
    }

    fn at(&self, index: Option<usize>) -> Option<Self> {
        index.map(|index| Spot { index, ..*self })
    }
}

impl<E: Element> Element for Spot<'_, E> {
    fn parent(&self) -> Option<Self> {
        self.at(self.page.places[self.index].parent)
    }

    fn previous_sibling(&self) -> Option<Self> {
        self.at(self.page.places[self.index].previous)
    }

    fn earlier_siblings(&self) -> u32 {
        self.own().earlier_siblings()
    }

    fn later_siblings(&self) -> u32 {
        self.own().later_siblings()
    }

    fn earlier_of_type(&self) -> u32 {
        self.own().earlier_of_type()
    }

    fn later_of_type(&self) -> u32 {
        self.own().later_of_type()
    }

    fn is_named(&self, name: &str) -> bool {
        self.own().is_named(name)
    }

    fn is_in_namespace(&self, number: usize) -> bool {
        self.own().is_in_namespace(number)
    }

    fn attribute(&self, name: &str) -> Option<&str> {
        self.own().attribute(name)
    }

    fn namespaced_attribute(&self, index: usize) -> Option<NamespacedAttribute<'_>> {
        self.own().namespaced_attribute(index)
    }

    fn is_in_state(&self, name: &str) -> bool {
        self.own().is_in_state(name)
    }

    fn is_in_language(&self, range: &str) -> bool {
        self.own().is_in_language(range)
    }

    fn has_content(&self) -> bool {
        self.own().has_content()
    }

    fn is_in_list(&self, number: usize) -> bool {
        match number {
            0 => self.own().is_in_list(0),
            _ => self.lists.get(number - 1).map_or(false, |it| it[self.index]),
        }
    }
}

impl<E: Keyed> Keyed for Spot<'_, E> {
    fn local_name(&self) -> &str {
        self.own().local_name()
    }

    fn attribute_count(&self) -> usize {
        self.own().attribute_count()
    }

    fn attribute_name(&self, index: usize) -> &str {
        self.own().attribute_name(index)
    }
}

/// A walk along a page: which rules match and what wins. Elements may be asked in any order, and those in the order
/// of the page take the least time. While it lives the page does not change.
pub struct PageStyles<'p, 's, 'a, E> {
    page: &'p Page<E>,
    lists: Vec<Vec<bool>>,
    rules: &'s css_styles::StyleRules<'a>,
    walk: css_index::SelectorWalk<'s, 'a>,
    /// The indices of the elements that are open.
    open: Vec<usize>,
    /// The element that was asked last, whose rules `indices` has.
    last: Option<usize>,
    tried: ProvedVec<usize>,
    indices: ProvedVec<usize>,
}

impl<'a, E: Keyed> PageStyles<'_, '_, 'a, E> {
    /// Returns the indices of the rules that match an element, in order. A rule with a pseudo-element is one of them if
    /// the selector before that matches. Only rules of which the element has a key are tested, each at most once.
    /// Panics if there is no element at the index.
    pub fn matching(&mut self, index: usize) -> &[usize] {
        if self.last != Some(index) {
            self.last = None;
            self.open_to(self.page.places[index].parent);
            let spot = Spot { page: self.page, lists: &self.lists, index };
            done(self.walk.matching(&spot, &mut self.tried, &mut self.indices, &mut Tests::new()));
            self.last = Some(index);
        }
        &self.indices
    }

    /// Returns the declaration of a property that wins, if one does. It wins by importance, by layers, by specificity,
    /// and by where it stands, over the element's own declarations too. A text is that of its `style` attribute.
    /// Shorthands are not expanded. The time is linear in the blocks of the rules that match. Panics if there is no
    /// element at the index.
    pub fn style(&mut self, index: usize, own: impl Into<Own<'a>>, property: &str) -> Option<Winner<'a>> {
        self.matching(index);
        super::winner_by(self.rules, &self.indices, short(own.into()), property)
    }

    /// Opens an element and those above it, and closes all others.
    fn open_to(&mut self, element: Option<usize>) {
        let places = &self.page.places;
        let (mut at, mut between) = (element, Vec::new());
        while let Some(index) = at.filter(|it| self.open.get(places[*it].depth) != Some(it)) {
            between.push(index);
            at = places[index].parent;
        }
        let kept = at.map_or(0, |it| places[it].depth + 1);
        while self.open.len() > kept {
            self.open.pop();
            self.walk.leave();
        }
        for index in between.into_iter().rev() {
            done(self.walk.enter(&Spot { page: self.page, lists: &self.lists, index }));
            self.open.push(index);
        }
    }
}
