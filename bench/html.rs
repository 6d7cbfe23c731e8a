//! Tokens and trees of pages beside html5ever, for bench/html.py. Arguments are files. For each page it writes a line: the size, and the
//! least processor times of reading it, in microseconds, with those of html5ever after them.
use html5ever::tendril::{StrTendril, TendrilSink};
use html5ever::tokenizer::states::RawKind::{Rawtext, Rcdata, ScriptData};
use html5ever::tokenizer::{BufferQueue, TagKind, Token, TokenSink, TokenSinkResult, Tokenizer};
use html5ever::tree_builder::{ElementFlags, NodeOrText, QuirksMode, TreeSink};
use html5ever::{parse_document, Attribute, ExpandedName, QualName};
use simplecss::erased::css_html::attributes::next_attribute;
use simplecss::erased::css_html::modes::{Mode, RawName};
use simplecss::erased::css_html::tokenizer::{read_next, TokenKind};
use simplecss::erased::css_html_tree::page::Options;
use simplecss::erased::css_html_tree::reading::read_page;
use simplecss::erased::html_calls::pages::{read, Reading};
use simplecss::modern::html;
use simplecss::rattle_std::alloc::Global;
use std::borrow::Cow;
use std::hint::black_box;

extern "C" {
    fn clock() -> i64;
}

const RUNS: usize = 15;
const WHOLE: Options = Options { has_scripts: false, context: None };

/// How the text of an element is read.
fn mode_of(name: &[u8]) -> Mode {
    match name {
        b"script" => Mode::Script,
        b"style" => Mode::Raw(RawName::Style),
        b"title" => Mode::Raw(RawName::Title),
        b"textarea" => Mode::Raw(RawName::Textarea),
        _ => Mode::Data,
    }
}

/// Reads the tokens and all attributes, and counts them.
fn tokens(text: &[u8]) -> usize {
    let (mut rest, mut mode, mut count) = (text, Mode::Data, 0);
    while let Some(token) = read_next(mode, rest) {
        if token.kind == TokenKind::StartTag {
            let mut left = token.inside_end;
            while let Some(attribute) = next_attribute(left) {
                left = attribute.rest;
                count += 1;
            }
            mode = mode_of(&token.inside[..token.inside.len() - token.inside_end.len()]);
        } else if token.kind == TokenKind::EndTag {
            mode = Mode::Data;
        }
        rest = token.rest;
        count += 1;
    }
    count
}

struct Counter(usize);

impl TokenSink for Counter {
    type Handle = ();

    fn process_token(&mut self, token: Token, _line: u64) -> TokenSinkResult<()> {
        self.0 += 1;
        if let Token::TagToken(tag) = &token {
            self.0 += tag.attrs.len();
            if tag.kind == TagKind::StartTag {
                return match &*tag.name {
                    "script" => TokenSinkResult::RawData(ScriptData),
                    "style" => TokenSinkResult::RawData(Rawtext),
                    "title" | "textarea" => TokenSinkResult::RawData(Rcdata),
                    _ => TokenSinkResult::Continue,
                };
            }
        }
        black_box(&token);
        TokenSinkResult::Continue
    }
}

fn their_tokens(text: &StrTendril) -> usize {
    let (mut reader, mut queue) = (Tokenizer::new(Counter(0), Default::default()), BufferQueue::new());
    queue.push_back(text.clone());
    let _ = reader.feed(&mut queue);
    reader.end();
    reader.sink.0
}

/// A node of html5ever's tree.
#[derive(Default)]
struct Node {
    parent: Option<usize>,
    children: Vec<usize>,
    name: Option<QualName>,
    attributes: Vec<Attribute>,
    text: StrTendril,
    content: Option<usize>,
}

/// html5ever's tree, as nodes in a list.
struct Nodes(Vec<Node>);

impl Nodes {
    fn add(&mut self, node: Node) -> usize {
        self.0.push(node);
        self.0.len() - 1
    }

    fn place(&mut self, parent: usize, at: usize, child: NodeOrText<usize>) {
        let child = match child {
            NodeOrText::AppendNode(node) => {
                self.take(node);
                node
            }
            NodeOrText::AppendText(text) => {
                let before = at.checked_sub(1).map(|it| self.0[parent].children[it]);
                if let Some(before) = before.filter(|it| self.0[*it].name.is_none() && !self.0[*it].text.is_empty()) {
                    self.0[before].text.push_tendril(&text);
                    return;
                }
                self.add(Node { text, ..Node::default() })
            }
        };
        self.0[child].parent = Some(parent);
        let at = at.min(self.0[parent].children.len());
        self.0[parent].children.insert(at, child);
    }

    fn take(&mut self, node: usize) {
        if let Some(parent) = self.0[node].parent.take() {
            self.0[parent].children.retain(|it| *it != node);
        }
    }
}

impl TreeSink for Nodes {
    type Handle = usize;
    type Output = usize;

    fn finish(self) -> usize {
        self.0.len()
    }

    fn parse_error(&mut self, _: Cow<'static, str>) {}

    fn get_document(&mut self) -> usize {
        0
    }

    fn elem_name<'a>(&'a self, target: &'a usize) -> ExpandedName<'a> {
        self.0[*target].name.as_ref().unwrap().expanded()
    }

    fn create_element(&mut self, name: QualName, attributes: Vec<Attribute>, flags: ElementFlags) -> usize {
        let content = flags.template.then(|| self.add(Node::default()));
        self.add(Node { name: Some(name), attributes, content, ..Node::default() })
    }

    fn create_comment(&mut self, text: StrTendril) -> usize {
        self.add(Node { text, ..Node::default() })
    }

    fn create_pi(&mut self, _: StrTendril, text: StrTendril) -> usize {
        self.add(Node { text, ..Node::default() })
    }

    fn append(&mut self, parent: &usize, child: NodeOrText<usize>) {
        self.place(*parent, self.0[*parent].children.len(), child);
    }

    fn append_based_on_parent_node(&mut self, element: &usize, previous: &usize, child: NodeOrText<usize>) {
        if self.0[*element].parent.is_some() {
            self.append_before_sibling(element, child);
        } else {
            self.append(previous, child);
        }
    }

    fn append_doctype_to_document(&mut self, _: StrTendril, _: StrTendril, _: StrTendril) {}

    fn get_template_contents(&mut self, target: &usize) -> usize {
        self.0[*target].content.unwrap()
    }

    fn same_node(&self, one: &usize, other: &usize) -> bool {
        one == other
    }

    fn set_quirks_mode(&mut self, _: QuirksMode) {}

    fn append_before_sibling(&mut self, sibling: &usize, child: NodeOrText<usize>) {
        let parent = self.0[*sibling].parent.unwrap();
        let at = self.0[parent].children.iter().rposition(|it| it == sibling).unwrap();
        self.place(parent, at, child);
    }

    fn add_attrs_if_missing(&mut self, target: &usize, attributes: Vec<Attribute>) {
        for one in attributes {
            if self.0[*target].attributes.iter().all(|it| it.name != one.name) {
                self.0[*target].attributes.push(one);
            }
        }
    }

    fn remove_from_parent(&mut self, target: &usize) {
        self.take(*target);
    }

    fn reparent_children(&mut self, node: &usize, parent: &usize) {
        let children = std::mem::take(&mut self.0[*node].children);
        children.iter().for_each(|it| self.0[*it].parent = Some(*parent));
        self.0[*parent].children.extend(children);
    }
}

fn their_tree(text: &StrTendril) -> usize {
    parse_document(Nodes(vec![Node::default()]), Default::default()).one(text.clone())
}

/// The least processor time of several calls, in microseconds, of which the calls take turns.
fn least(calls: &[&dyn Fn() -> usize]) -> Vec<i64> {
    let mut found = vec![i64::MAX; calls.len()];
    for _ in 0..RUNS {
        for (call, least) in calls.iter().zip(&mut found) {
            let start = unsafe { clock() };
            black_box(call());
            *least = (*least).min(unsafe { clock() } - start);
        }
    }
    found
}

fn main() {
    for name in std::env::args().skip(1) {
        let text = std::fs::read_to_string(&name).unwrap();
        let (bytes, theirs) = (text.as_bytes(), StrTendril::from(text.as_str()));
        let reading = Reading { options: WHOLE, leaves_templates: true };
        let times = least(&[
            &|| tokens(bytes),
            &|| their_tokens(&theirs),
            &|| read_page(Global, bytes, &WHOLE).ok().unwrap().rows.len(),
            &|| read(Global, bytes, &reading).ok().unwrap().numbers.len(),
            &|| html::Page::parse(&text).unwrap().len(),
            &|| their_tree(&theirs),
        ]);
        let shown: Vec<String> = times.iter().map(i64::to_string).collect();
        println!("{} {}", bytes.len(), shown.join(" "));
    }
}
