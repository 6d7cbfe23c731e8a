//! Pages in HTML, and documents in XML: the tree that a browser makes of a text, and where its tags and attributes are in it.
//!
//! ```
//! use simplecss::modern::{html::Page, Options, Selector, Sheet, Text};
//!
//! let text = "<!DOCTYPE html><ul><li class=a>one<li>two</ul>";
//! let page = Page::parse(text).unwrap();
//! let names: Vec<_> = page.elements().map(|it| it.name()).collect();
//! assert_eq!(names, ["html", "head", "body", "ul", "li", "li"]);
//!
//! let item = page.element(4).unwrap();
//! assert_eq!(&text[item.start_tag().unwrap()], "<li class=a>");
//! let class = item.attributes().next().unwrap();
//! assert_eq!((class.name, class.value, &text[class.range]), ("class", "a", "class=a"));
//!
//! let tree = page.tree();
//! let mut document = page.document(&tree);
//! let selectors = Selector::parse_list("UL > li:not(.a)").unwrap();
//! assert_eq!(document.select(&selectors, 1_000_000).unwrap(), [5]);
//!
//! let text = Text::sheet("Li { color: red } li + li { color: blue }");
//! let sheet = Sheet::parse(&text, &Options::default()).unwrap();
//! let rules = document.rules(&sheet);
//! let mut styles = document.styles(&rules, 1_000_000).unwrap();
//! let mut color = |index| styles.style(index, (), "color").unwrap().declaration.value;
//! assert_eq!([color(4), color(5)], ["red", "blue"]);
//! ```
use super::{HtmlSheet, NamespacedAttribute, Selector, Sheet, Styles, TooManyAnswers};
use crate::erased::css_html_tree::page::{Context as ProvedContext, Fault, Options as ProvedOptions};
use crate::erased::css_selectors::MarkedList;
use crate::erased::css_tree::html::{html_marked, html_selector, HtmlMode, CASELESS_ATTRIBUTES, QUIRKS_ATTRIBUTES};
use crate::erased::css_xml::faults::Fault as XmlFault;
use crate::erased::html_calls::documents::read_xml;
use crate::erased::html_calls::encodings::encoding_of;
use crate::erased::html_calls::pages::{context_of, read, Reading};
use crate::erased::html_encodings::page::Source;
use crate::rattle_std::alloc::Global;
use crate::tree::{States, Tree};
use crate::{done, within};
use alloc::collections::{BTreeMap, BTreeSet};
use alloc::string::String;
use alloc::vec::Vec;
use core::fmt;
use core::ops::Range;

/// The namespaces of elements and attributes. The number of each is one more than its index: that of HTML is 1.
///
/// ```
/// use simplecss::modern::{html, Options, Sheet, Text};
///
/// let text = Text::sheet("@namespace 'http://www.w3.org/2000/svg'; a { fill: red }");
/// let page = html::Page::parse("<a></a><svg><a></a></svg>").unwrap();
/// let tree = page.tree();
/// let mut document = page.document(&tree);
/// let sheet = Sheet::parse(&text, &Options { namespaces: &html::NAMESPACES, ..Options::default() }).unwrap();
/// let rules = document.rules(&sheet);
/// let mut styles = document.styles(&rules, 1_000_000).unwrap();
/// let drawn = |index: usize| styles.style(index, (), "fill").is_some();
/// assert_eq!((3..6).map(drawn).collect::<Vec<_>>(), [false, false, true]);
/// ```
pub const NAMESPACES: [&str; 6] = [
    "http://www.w3.org/1999/xhtml",
    "http://www.w3.org/2000/svg",
    "http://www.w3.org/1998/Math/MathML",
    "http://www.w3.org/1999/xlink",
    "http://www.w3.org/XML/1998/namespace",
    "http://www.w3.org/2000/xmlns/",
];

/// The numbers of namespaces.
const HTML: usize = 1;
const SVG: usize = 2;
const XLINK: usize = 4;
const XML: usize = 5;
const XMLNS: usize = 6;
/// The number of the namespace of `xml` in a document in XML.
const XML_OF_DOCUMENTS: usize = 1;

/// How many numbers an attribute, an element, another node and a merged tag have.
const OF_ATTRIBUTE: usize = 5;
const OF_ELEMENT: usize = 6;
const OF_OTHER: usize = 5;
const OF_MERGED: usize = 2;
/// The kind of other nodes that is the last of texts.
const CDATA: usize = 2;

/// Why a text is not read.
#[derive(Clone, Copy, Debug, PartialEq)]
pub enum PageError {
    /// Elements are nested in a way that takes time or elements out of proportion: about 100 steps for each 8 bytes.
    TooDeep,
    /// There are 2^32 elements or more, or in XML more namespaces than are read.
    TooLong,
    /// A text is no document in XML, by what is at this offset.
    NotWellFormed(usize),
}

impl fmt::Display for PageError {
    fn fmt(&self, f: &mut fmt::Formatter<'_>) -> fmt::Result {
        f.write_str(match self {
            PageError::TooDeep => "elements are nested in a way that takes time or elements out of proportion",
            PageError::TooLong => "there are too many elements or namespaces",
            PageError::NotWellFormed(_) => "the document is not well-formed",
        })
    }
}

impl crate::rattle_std::error::Error for PageError {}

/// What says in which encoding a page is.
#[derive(Clone, Copy, Debug, PartialEq, Eq)]
pub enum EncodingSource {
    /// A mark of the order of bytes at its front.
    Mark,
    /// The label that comes with it, as from a server.
    Label,
    /// A `meta` in its first 1,024 bytes, or in its head.
    Meta,
    /// An XML declaration.
    Declaration,
    /// Nothing: the encoding is windows-1252.
    Default,
}

/// The encoding of a page: its name in the Encoding Standard, and what says it.
#[derive(Clone, Copy, Debug, PartialEq, Eq)]
pub struct PageEncoding {
    /// The name of the encoding.
    pub name: &'static str,
    /// What says it.
    pub source: EncodingSource,
}

/// Returns the encoding of a page in bytes, which comes with a label or an empty one.
///
/// ```
/// use simplecss::modern::html::{page_encoding, EncodingSource};
///
/// let found = page_encoding(b"<!DOCTYPE html><meta charset=latin1>", "");
/// assert_eq!((found.name, found.source), ("windows-1252", EncodingSource::Meta));
/// assert_eq!(page_encoding(b"<meta charset=latin1>", "sjis").name, "Shift_JIS");
/// ```
pub fn page_encoding(page: &[u8], label: &str) -> PageEncoding {
    let found = encoding_of(Global, label.as_bytes(), page).unwrap_or_else(|_| panic!("memory allocation failed"));
    PageEncoding {
        name: found.encoding.name(),
        source: match found.source {
            Source::Mark => EncodingSource::Mark,
            Source::Label => EncodingSource::Label,
            Source::Meta => EncodingSource::Meta,
            Source::Declaration => EncodingSource::Declaration,
            Source::Default => EncodingSource::Default,
        },
    }
}

/// How a text is read.
///
/// ```
/// use simplecss::modern::html::{Options, Page};
///
/// let names = |text, options: &Options| {
///     let page = Page::parse_with(text, options).unwrap();
///     page.elements().map(|it| it.name().to_string()).collect::<Vec<_>>()
/// };
/// assert_eq!(names("<td>a", &Options { context: Some("tr"), ..Options::default() }), ["td"]);
/// assert_eq!(names("<td>a", &Options { context: Some("body"), ..Options::default() }), [""; 0]);
/// ```
#[derive(Clone, Copy, Debug, Default)]
pub struct Options<'o> {
    /// The start tag of the element of HTML whose content the text is, without `<` and `>`. Without one the text is a
    /// whole page.
    pub context: Option<&'o str>,
    /// Whether scripts run, so that what is in a `noscript` is text.
    pub scripts: bool,
    /// Whether elements in a `template` are there, which are in no tree that selectors match.
    pub templates: bool,
}

/// A start tag: where it is, and which attributes are its own, by their indices.
struct Tag {
    range: Range<usize>,
    attributes: Range<usize>,
}

/// What is kept of an attribute: where its name, its value and it are.
struct KeptAttribute {
    name: Range<usize>,
    value: Range<usize>,
    end: usize,
}

/// What is kept of an element.
struct KeptElement {
    tag: Option<usize>,
    parent: Option<usize>,
    depth: usize,
    namespace: usize,
    end_tag: Range<usize>,
}

/// A text between tags.
#[derive(Clone, Debug, PartialEq, Eq)]
pub struct Text<'p> {
    /// What it says, without references.
    pub text: &'p str,
    /// The index of the element that it is in.
    pub parent: Option<usize>,
    /// The bytes of the page.
    pub range: Range<usize>,
}

/// A page that was read: its elements in the order of the document.
pub struct Page<'a> {
    text: &'a str,
    is_quirky: bool,
    is_doubtful: bool,
    head_end: Option<usize>,
    tags: Vec<Tag>,
    attributes: Vec<KeptAttribute>,
    elements: Vec<KeptElement>,
    /// The texts: the number of the string of each, and its element and its place.
    texts: Vec<(usize, Option<usize>, Range<usize>)>,
    /// The indices of the attributes of elements that have more than those of their tags.
    merged: BTreeMap<usize, Vec<usize>>,
    /// By the numbers of strings with capitals these in lower case, where selectors compare them so.
    lowered: BTreeMap<usize, String>,
    /// Names and values, the one after the other, and where each ends.
    strings: String,
    ends: Vec<usize>,
    xml: Option<KeptNamespaces>,
}

/// What is kept of the namespaces of a document in XML: the number of that of each attribute, and the number of the string
/// of the first.
struct KeptNamespaces {
    of_attributes: Vec<usize>,
    first: usize,
}

/// Takes numbers from the front of those that are left.
struct Numbers<'n>(&'n [usize]);

impl<'n> Numbers<'n> {
    fn take(&mut self, count: usize) -> &'n [usize] {
        let (first, rest) = self.0.split_at(count);
        self.0 = rest;
        first
    }

    fn next(&mut self) -> usize {
        self.take(1)[0]
    }

    fn rows(&mut self, count: usize, width: usize) -> core::slice::ChunksExact<'n, usize> {
        self.take(count * width).chunks_exact(width)
    }
}

/// Returns an index from a number from 1, or `None` from 0.
fn index_of(number: usize) -> Option<usize> {
    number.checked_sub(1)
}

impl<'a> Page<'a> {
    /// Reads a page, as a browser does without scripts. A mark of the order of bytes at the front is no part of it.
    pub fn parse(text: &'a str) -> Result<Self, PageError> {
        Page::parse_with(text, &Options::default())
    }

    /// Reads a page, or the content of an element.
    pub fn parse_with(text: &'a str, options: &Options<'_>) -> Result<Self, PageError> {
        let context: Option<ProvedContext<'_>> = options.context.and_then(|tag| context_of(HTML, tag.as_bytes()));
        let reading = Reading {
            options: ProvedOptions { has_scripts: options.scripts, context },
            leaves_templates: !options.templates,
        };
        match read(Global, within(text).as_bytes(), &reading) {
            Ok(answer) => Ok(Page::of(text, &answer.numbers, answer.strings.0, false)),
            Err(Fault::TooDeep) => Err(PageError::TooDeep),
            Err(Fault::TooLong) => Err(PageError::TooLong),
            Err(Fault::Memory) => panic!("memory allocation failed"),
        }
    }

    /// Reads a document in XML, as SVG or XHTML. A mark of the order of bytes at the front is no part of it. Names of elements
    /// and attributes are local names, and [`Page::namespaces`] has the namespaces.
    ///
    /// ```
    /// use simplecss::modern::{html::{Page, PageError}, Options, Selector, Sheet, Text};
    ///
    /// let text = "<svg xmlns='http://www.w3.org/2000/svg' xmlns:h='urn:x'><g h:A='1'/><h:G>&lt;</h:G></svg>";
    /// let page = Page::parse_xml(text).unwrap();
    /// let names: Vec<_> = page.elements().map(|it| (it.name(), page.namespaces()[it.namespace() - 1])).collect();
    /// assert_eq!(names[1..], [("g", "http://www.w3.org/2000/svg"), ("G", "urn:x")]);
    /// assert_eq!(&text[page.element(1).unwrap().start_tag().unwrap()], "<g h:A='1'/>");
    ///
    /// let tree = page.tree();
    /// let mut document = page.document(&tree);
    /// assert_eq!(document.select(&Selector::parse_list("svg > G, [*|A]").unwrap(), 1_000_000).unwrap(), [1, 2]);
    ///
    /// let namespaces = page.namespaces();
    /// let options = Options { namespaces: &namespaces, ..Options::default() };
    /// let text = Text::sheet("@namespace n 'urn:x'; n|* { fill: red } n|g { fill: blue }");
    /// let sheet = Sheet::parse(&text, &options).unwrap();
    /// let rules = document.rules(&sheet);
    /// let mut styles = document.styles(&rules, 1_000_000).unwrap();
    /// assert_eq!(styles.style(2, (), "fill").unwrap().declaration.value, "red");
    /// assert!(styles.style(1, (), "fill").is_none());
    ///
    /// assert_eq!(Page::parse_xml("<a></b>").err(), Some(PageError::NotWellFormed(3)));
    /// ```
    pub fn parse_xml(text: &'a str) -> Result<Self, PageError> {
        match read_xml(Global, within(text).as_bytes()) {
            Ok(answer) => Ok(Page::of(text, &answer.numbers, answer.strings.0, true)),
            Err(XmlFault::NotWellFormed(_, offset)) => Err(PageError::NotWellFormed(offset)),
            Err(XmlFault::TooMany) => Err(PageError::TooLong),
            Err(XmlFault::Memory) => panic!("memory allocation failed"),
        }
    }

    fn of(text: &'a str, numbers: &[usize], strings: Vec<u8>, is_xml: bool) -> Self {
        let mut left = Numbers(numbers);
        let tags = left.next();
        let places = left.rows(tags, 2);
        let counts = left.take(4);
        let (is_quirky, is_doubtful, head_end) = (left.next() != 0, left.next() != 0, index_of(left.next()));
        let mut start = 0;
        let tags = left.take(tags).iter().zip(places).map(|(count, place)| {
            start += count;
            Tag { range: place[0]..place[1], attributes: start - count..start }
        });
        let tags = tags.collect();
        let attributes = left.rows(counts[0], OF_ATTRIBUTE).map(|it| KeptAttribute {
            name: it[0]..it[1],
            value: it[2]..it[3],
            end: it[4],
        });
        let attributes = attributes.collect();
        let elements = left.rows(counts[1], OF_ELEMENT).map(|it| KeptElement {
            tag: index_of(it[0]),
            parent: index_of(it[1]),
            depth: it[2],
            namespace: it[3],
            end_tag: it[4]..it[5],
        });
        let elements = elements.collect();
        let first = 2 * counts[0] + counts[1];
        let others = left.rows(counts[2], OF_OTHER).enumerate().filter(|(_, it)| it[0] <= CDATA);
        let texts = others.map(|(at, it)| (first + at, index_of(it[2]), it[3]..it[4])).collect();
        let last = first + counts[2];
        let xml = is_xml.then(|| KeptNamespaces { of_attributes: left.take(counts[0]).to_vec(), first: last });
        let more: Vec<_> = left.rows(counts[3], OF_MERGED).filter_map(|it| Some((index_of(it[0])?, it[1] - 1))).collect();
        let strings = String::from_utf8(strings).expect("names and values are in UTF-8");
        let (merged, lowered, ends) = (BTreeMap::new(), BTreeMap::new(), left.0.to_vec());
        let mut page = Page {
            text, is_quirky, is_doubtful, head_end, tags, attributes, elements, texts, merged, lowered, strings, ends, xml,
        };
        if !is_xml {
            page.merged = page.with_more(&more);
            page.lowered = page.lower();
        }
        page
    }

    /// Returns the attributes of elements that have those of further tags, too.
    fn with_more(&self, more: &[(usize, usize)]) -> BTreeMap<usize, Vec<usize>> {
        let mut found: BTreeMap<usize, Vec<usize>> = BTreeMap::new();
        for (element, tag) in more {
            let own = || self.elements[*element].tag.map_or(Vec::new(), |tag| self.tags[tag].attributes.clone().collect());
            found.entry(*element).or_insert_with(own).extend(self.tags[*tag].attributes.clone());
        }
        found
    }

    /// Returns in lower case the names with capitals, and the values with capitals that selectors compare without case.
    fn lower(&self) -> BTreeMap<usize, String> {
        let is_compared = |name: &str| {
            CASELESS_ATTRIBUTES.contains(&name) || self.is_quirky && QUIRKS_ATTRIBUTES.contains(&name)
        };
        let count = self.attributes.len();
        let values = (0..count).filter(|it| is_compared(self.string(2 * it))).map(|it| 2 * it + 1);
        let names = (0..count).map(|it| 2 * it).chain((0..self.len()).map(|it| 2 * count + it));
        let all = names.chain(values).map(|number| (number, self.string(number)));
        let some = all.filter(|(_, text)| text.bytes().any(|it| it.is_ascii_uppercase()));
        some.map(|(number, text)| (number, text.to_ascii_lowercase())).collect()
    }

    /// Returns the string of a number as selectors compare it.
    fn compared(&self, number: usize) -> &str {
        self.lowered.get(&number).map_or_else(|| self.string(number), String::as_str)
    }

    /// Returns how selectors are read, if the page is in HTML.
    fn mode(&self) -> Option<HtmlMode> {
        match self.xml {
            Some(_) => None,
            None if self.is_quirky => Some(HtmlMode::Quirks),
            None => Some(HtmlMode::NoQuirks),
        }
    }

    /// Returns the namespaces of elements and attributes, of which the number of each is one more than its index: of a page in
    /// HTML [`NAMESPACES`].
    pub fn namespaces(&self) -> Vec<&str> {
        match &self.xml {
            Some(xml) => (xml.first..self.ends.len()).map(|number| self.string(number)).collect(),
            None => NAMESPACES.to_vec(),
        }
    }

    /// Returns the name of the namespace of a number, or nothing.
    fn namespace_name(&self, number: usize) -> &str {
        match (&self.xml, number.checked_sub(1)) {
            (Some(xml), Some(index)) => self.string(xml.first + index),
            (None, Some(index)) => NAMESPACES[index],
            (_, None) => "",
        }
    }

    /// Returns the string of a number.
    fn string(&self, number: usize) -> &str {
        let start = number.checked_sub(1).map_or(0, |before| self.ends[before]);
        &self.strings[start..self.ends[number]]
    }

    /// Returns the number of elements.
    pub fn len(&self) -> usize {
        self.elements.len()
    }

    /// Whether there is no element.
    pub fn is_empty(&self) -> bool {
        self.elements.is_empty()
    }

    /// Returns the element at an index, if there is one.
    pub fn element(&self, index: usize) -> Option<Element<'_>> {
        (index < self.len()).then_some(Element { page: self, index })
    }

    /// Returns the elements in the order of the document: each after its parent and its earlier siblings.
    pub fn elements(&self) -> impl ExactSizeIterator<Item = Element<'_>> {
        (0..self.len()).map(move |index| Element { page: self, index })
    }

    /// Returns the texts in the order of the document.
    ///
    /// ```
    /// let page = simplecss::modern::html::Page::parse("<p>a &amp; b<p>c").unwrap();
    /// assert_eq!(page.texts().map(|it| (it.text, it.parent, it.range)).collect::<Vec<_>>(), [
    ///     ("a & b", Some(3), 3..12),
    ///     ("c", Some(4), 15..16),
    /// ]);
    /// ```
    pub fn texts(&self) -> impl Iterator<Item = Text<'_>> {
        let texts = self.texts.iter();
        texts.map(move |(number, parent, range)| Text { text: self.string(*number), parent: *parent, range: range.clone() })
    }

    /// Whether the page is in quirks mode, as its document type says.
    pub fn is_quirky(&self) -> bool {
        self.is_quirky
    }

    /// Whether browsers may read the page in different ways.
    pub fn is_doubtful(&self) -> bool {
        self.is_doubtful || self.text.contains('\0')
    }

    /// Returns the offset at which the head ends: what is put there is in it.
    pub fn head_end(&self) -> Option<usize> {
        self.head_end
    }

    /// Returns the elements as a tree, with the same indices, for [`Page::document`]. What selectors compare without case
    /// is in lower case there, and attributes in namespaces are those of the document alone.
    pub fn tree(&self) -> Tree<'_> {
        let mut tree = Tree::new();
        for element in self.elements() {
            let index = done(tree.push(element.parent(), self.compared(element.name_number())));
            for at in element.firsts().filter(|it| element.adjusted(*it).is_none()) {
                done(tree.set_attribute(self.compared(2 * at), self.compared(2 * at + 1)));
            }
            if let Some(language) = element.language() {
                done(tree.set_attribute("lang", language));
            }
            if element.is_link() {
                done(tree.set_states(index, States { link: true, ..States::default() }));
            }
        }
        tree
    }

    /// Returns the tree of this page as a document, which reads selectors as its mode says.
    pub fn document<'p>(&'p self, tree: &'p Tree<'p>) -> Document<'p, 'p> {
        let mut document = super::Document::new(tree);
        for it in self.texts().filter(|it| !it.text.is_empty()) {
            it.parent.into_iter().for_each(|parent| document.set_text(parent));
        }
        document.set_namespaces(self.elements.iter().map(|it| it.namespace).collect());
        document.set_namespaced_attributes(self.elements().map(|it| it.namespaced()).collect());
        if self.mode().is_some() {
            document.set_html();
        }
        Document { document, mode: self.mode() }
    }
}

/// An attribute of an element, and where it is.
#[derive(Clone, Debug, PartialEq, Eq)]
pub struct Attribute<'p> {
    /// The name: in lower case, but for those with capitals in SVG and MathML. In XML it is the local name.
    pub name: &'p str,
    /// The number of the namespace, one more than its index in [`Page::namespaces`], or 0.
    pub namespace: usize,
    /// The value, without references.
    pub value: &'p str,
    /// The bytes of the page: from the name to the end of the value, with its quotes.
    pub range: Range<usize>,
    /// The bytes of its name.
    pub name_range: Range<usize>,
    /// The bytes of its value, without quotes. They are none if it has no value.
    pub value_range: Range<usize>,
}

/// An element of a page.
#[derive(Clone, Copy)]
pub struct Element<'p> {
    page: &'p Page<'p>,
    index: usize,
}

impl<'p> Element<'p> {
    fn kept(&self) -> &'p KeptElement {
        &self.page.elements[self.index]
    }

    /// Returns the index of the element.
    pub fn index(&self) -> usize {
        self.index
    }

    fn name_number(&self) -> usize {
        2 * self.page.attributes.len() + self.index
    }

    /// Returns the name: in lower case, but for those with capitals in SVG. In XML it is the local name.
    pub fn name(&self) -> &'p str {
        self.page.string(self.name_number())
    }

    /// Returns the number of the namespace, one more than its index in [`Page::namespaces`]: in HTML 1 for HTML, 2 for SVG and
    /// 3 for MathML, and in XML 0 for none.
    pub fn namespace(&self) -> usize {
        self.kept().namespace
    }

    /// Whether the element is one of SVG.
    pub fn is_drawn(&self) -> bool {
        self.page.namespace_name(self.namespace()) == NAMESPACES[SVG - 1]
    }

    /// Returns the index of the parent, if there is one.
    pub fn parent(&self) -> Option<usize> {
        self.kept().parent
    }

    /// Returns how many ancestors the element has.
    pub fn depth(&self) -> usize {
        self.kept().depth
    }

    /// Returns the bytes of the start tag. An element that the page leaves out has none, and several elements may have
    /// one start tag.
    ///
    /// ```
    /// let text = "<b>one<p>two</b>three";
    /// let page = simplecss::modern::html::Page::parse(text).unwrap();
    /// let tags: Vec<_> = page.elements().map(|it| it.start_tag().map_or("", |tag| &text[tag])).collect();
    /// assert_eq!(tags, ["", "", "", "<b>", "<p>", "<b>"]);
    /// ```
    pub fn start_tag(&self) -> Option<Range<usize>> {
        self.kept().tag.map(|tag| self.page.tags[tag].range.clone())
    }

    /// Returns the bytes of the end tag. Where the element ends without one they are none.
    pub fn end_tag(&self) -> Range<usize> {
        self.kept().end_tag.clone()
    }

    /// Returns the indices of the attributes.
    fn indices(&self) -> Vec<usize> {
        match (self.page.merged.get(&self.index), self.kept().tag) {
            (Some(more), _) => more.clone(),
            (None, Some(tag)) => self.page.tags[tag].attributes.clone().collect(),
            (None, None) => Vec::new(),
        }
    }

    /// Returns the indices of the attributes that are the first of their names.
    fn firsts(&self) -> impl Iterator<Item = usize> + 'p {
        let (page, mut names) = (self.page, BTreeSet::new());
        self.indices().into_iter().filter(move |it| page.xml.is_some() || names.insert(page.string(2 * it)))
    }

    /// Returns the attributes, of which each has another name. Those of an `html` or a `body` may be in several tags.
    pub fn attributes(&self) -> impl Iterator<Item = Attribute<'p>> {
        let (page, element) = (self.page, *self);
        self.firsts().map(move |at| {
            let kept = &page.attributes[at];
            Attribute {
                name: page.string(2 * at),
                namespace: element.adjusted(at).map_or(0, |(namespace, _)| namespace),
                value: page.string(2 * at + 1),
                range: kept.name.start..kept.end,
                name_range: kept.name.clone(),
                value_range: kept.value.clone(),
            }
        })
    }

    /// Returns the value of an attribute, if the element has it: in XML of one that is in no namespace.
    pub fn attribute(&self, name: &str) -> Option<&'p str> {
        let is_counted = |it: &Attribute<'_>| self.page.xml.is_none() || it.namespace == 0;
        self.attributes().find(|it| it.name == name && is_counted(it)).map(|it| it.value)
    }

    /// Returns the number of the namespace and the local name of an attribute that is in one (HTML Standard, "Creating
    /// and inserting nodes").
    fn adjusted(&self, at: usize) -> Option<(usize, &'p str)> {
        const LINKS: [&str; 7] = ["actuate", "arcrole", "href", "role", "show", "title", "type"];
        let name = self.page.string(2 * at);
        if let Some(xml) = &self.page.xml {
            return Some((xml.of_attributes[at], name)).filter(|(namespace, _)| *namespace > 0);
        }
        if self.namespace() == HTML {
            return None;
        }
        match name {
            "xml:lang" => Some((XML, "lang")),
            "xml:space" => Some((XML, "space")),
            "xmlns" => Some((XMLNS, "xmlns")),
            "xmlns:xlink" => Some((XMLNS, "xlink")),
            _ => {
                let name = name.strip_prefix("xlink:")?;
                LINKS.iter().find(|it| **it == name).map(|it| (XLINK, *it))
            }
        }
    }

    /// Returns the attributes in namespaces.
    fn namespaced(&self) -> Vec<NamespacedAttribute<'p>> {
        let all = self.firsts().filter_map(|at| Some((self.adjusted(at)?, self.page.string(2 * at + 1))));
        all.map(|((namespace, name), value)| NamespacedAttribute { namespace, name, value }).collect()
    }

    /// Returns the language that XML names, if nothing else does.
    fn language(&self) -> Option<&'p str> {
        if self.page.xml.is_some() {
            let is_language = |it: &Attribute<'_>| it.namespace == XML_OF_DOCUMENTS && it.name == "lang";
            return self.attributes().find(is_language).map(|it| it.value);
        }
        let is_named = self.namespace() == HTML || self.attribute("lang").is_some();
        self.attribute("xml:lang").filter(|_| !is_named)
    }

    /// Whether the element is a link.
    fn is_link(&self) -> bool {
        let has = |name| self.attribute(name).is_some();
        let is_in = |number: usize| self.page.namespace_name(self.namespace()) == NAMESPACES[number - 1];
        let names_link = || self.firsts().filter_map(|at| self.adjusted(at)).any(|(space, name)| {
            name == "href" && self.page.namespace_name(space) == NAMESPACES[XLINK - 1]
        });
        match self.name() {
            "a" if self.page.xml.is_some() && !is_in(HTML) && !is_in(SVG) => false,
            "a" => has("href") || is_in(SVG) && names_link(),
            "area" => is_in(HTML) && has("href"),
            _ => false,
        }
    }
}

/// A page that selectors match, as browsers do: without regard to case in names of elements and attributes and in values
/// of some attributes, and in quirks mode in ids and classes.
///
/// ```
/// use simplecss::modern::{html::Page, Selector};
///
/// let selected = |text, selectors| {
///     let page = Page::parse(text).unwrap();
///     let tree = page.tree();
///     page.document(&tree).select(&Selector::parse_list(selectors).unwrap(), 1_000_000).unwrap()
/// };
/// assert_eq!(selected("<p class=A>", "P.a"), [3]);
/// assert_eq!(selected("<!DOCTYPE html><p class=A>", "P.a"), []);
/// assert_eq!(selected("<input type=CHECKBOX checked>", "[TYPE=checkbox]:checked"), [3]);
/// ```
pub struct Document<'p, 't> {
    document: super::Document<'p, 't>,
    mode: Option<HtmlMode>,
}

impl<'p, 't> Document<'p, 't> {
    /// Says which element `:scope` is, by its index. Without one it is the root.
    pub fn set_scope(&mut self, scope: Option<usize>) {
        self.document.set_scope(scope);
    }

    /// Names states, as [`super::Document::set_states`] does.
    pub fn set_states(&mut self, states: Vec<(&'t str, Vec<bool>)>) {
        self.document.set_states(states);
    }

    /// Returns lists as the page reads them.
    fn read<'s>(mode: HtmlMode, lists: &'s [MarkedList<'_>]) -> Vec<MarkedList<'s>> {
        lists.iter().map(|it| done(html_marked(Global, mode, it))).collect()
    }

    /// Returns the indices of the elements that match, as [`super::Document::select`] does.
    pub fn select(&mut self, selectors: &[Selector<'_>], most: usize) -> Result<Vec<usize>, TooManyAnswers> {
        let Some(mode) = self.mode else {
            return self.document.select(selectors, most);
        };
        let length = self.document.0.len();
        super::expect_few(selectors, length, most)?;
        let mut found = alloc::vec![false; length];
        for (selector, lists) in selectors.iter().map(Selector::asking) {
            let (selector, lists) = (done(html_selector(Global, mode, selector)), Self::read(mode, lists));
            self.document.answer(&lists, most)?;
            for (index, one) in found.iter_mut().enumerate() {
                *one = *one || self.document.node(index).map_or(false, |node| super::is_matched(&selector, &node));
            }
        }
        Ok(super::places_of(&found))
    }

    /// Returns the rules of a sheet as the page reads their selectors.
    pub fn rules<'s, 'a>(&self, sheet: &'s Sheet<'a>) -> HtmlSheet<'s, 'a> {
        self.mode.map_or_else(|| sheet.in_xml(), |mode| sheet.in_html(mode))
    }

    /// Returns a walk along the page that finds what wins, as [`super::Document::styles`] does.
    pub fn styles<'d, 'h: 'd, 's, 'a>(
        &'d mut self,
        rules: &'h HtmlSheet<'s, 'a>,
        most: usize,
    ) -> Result<Styles<'d, 'p, 't, 'h, 'a, 's>, TooManyAnswers> {
        self.document.html_styles(rules, most)
    }
}
