// Trees of elements: of a DOM, of parse5, of domhandler, or of a program's own.
import { KeptPage, KeptQuery, NO_LIMIT, PORT_SELECTED, TreeError, askList, askPort, call, encode } from './library.mjs';
import { expectOptions, expectText, joined, limited, sizes } from './library.mjs';
import { decodedPage, documentOf, pageOf } from './html.mjs';
import { lower } from './reading.mjs';

// The grammars: that of browsers, and that of the Rust crate.
export const MODERN = 'modern';
export const PORT = 'simplecss';
// The states of an element that the library numbers, and that of one with a text of its own.
const STATES = { link: 1, visited: 2, hover: 4, active: 8, focus: 16 };
const HAS_TEXT = 32;
// Two more that `:dir(ltr)` and `:dir(rtl)` test, the number of the first state that a tree names, and how many it may name.
const DIRECTIONS = ['dir(ltr)', 'dir(rtl)'], FIRST_NAMED = 128, MOST_NAMED = 24;
// The states of elements of HTML that attributes decide, those of them that elements without an attribute are in, too, and a name of
// an element that is in no more.
const DECIDED = ['checked', 'disabled', 'enabled', 'required', 'optional', 'read-only', 'read-write', 'placeholder-shown', 'default',
  'indeterminate', 'open', 'defined', ...DIRECTIONS];
const OF_ALL = new Set(['defined', ...DIRECTIONS]), OF_NO_HTML = 'svg';
// How names and values of modern selectors are compared, as the library numbers it among its grammars, and the grammars
// where no document is read.
const AS_WRITTEN = 0n, HTML = 1n, QUIRKS = 2n;
export const NUMBERS = { [MODERN]: AS_WRITTEN, [PORT]: 3n };
// The attributes whose values HTML compares without case (HTML Standard, "Case-sensitivity of selectors").
const WITHOUT_CASE = new Set((
  'accept accept-charset align alink axis bgcolor charset checked clear codetype color compact declare defer dir direction'
  + ' disabled enctype face frame hreflang http-equiv lang language link media method multiple nohref noresize noshade'
  + ' nowrap readonly rel rev rules scope scrolling selected shape target text type valign valuetype vlink').split(' '));
const CASELESS = new Map([[HTML, WITHOUT_CASE], [QUIRKS, new Set([...WITHOUT_CASE, 'class', 'id'])]]);
export const SPACE_OF_HTML = 'http://www.w3.org/1999/xhtml';
// How many namespaces the library knows in sheets. The number after them is of those that no element is in.
const MOST_KNOWN = 1024;
const SPACE_OF_SVG = 'http://www.w3.org/2000/svg', SPACE_OF_XML = 'http://www.w3.org/XML/1998/namespace';
// Kinds of nodes of a DOM.
const IS_ELEMENT = 1, IS_TEXT = 3, IS_CDATA = 4, IS_DOCUMENT = 9, IS_FRAGMENT = 11;
// The types of elements of domhandler.
const ELEMENT_TYPES = new Set(['tag', 'script', 'style']);
// How many numbers of what wins on an element there is room for at first.
const ROOM_FOR_ELEMENT = 64;
// The name of a file in place of a page.
const PAGE_NAME = /^[^{}()@;"'<>\s]{1,4096}\.(?:html?|xhtml|svg|xml)$/i;
// How many lists of selectors have their answers kept, and for how many sets of prefixes the library keeps the page of a tree.
const MOST_QUESTIONS = 32, MOST_PAGES = 4;
// To ask about some elements takes as long as to test so many.
const OF_QUESTION = 64;
// What a text has if `:has()` or `of` may be in it, whose lists are tested on all elements.
const LISTED = /has\(|[^-]of|\\/i;

/** A text is not a selector: `row`, `column` and `reason` say where and why. Columns count characters. */
export class SelectorError extends Error {
  name = 'SelectorError';

  constructor(reason, row, column) {
    super(`${row}:${column}: ${reason}`);
    Object.assign(this, { reason, row, column });
  }
}

// What a text that was read has of itself.
const READ = Symbol('read');

/** A text of selectors that was read by a grammar: it is taken where a text is. */
export class ReadText {
  constructor(source, grammar) {
    Object.defineProperty(this, READ, { value: { source, grammar } });
  }
}
/** Returns the name of a grammar, if it is one. */
export function grammarOf(options) {
  const { grammar = MODERN } = options ?? {};
  if (grammar !== MODERN && grammar !== PORT) throw new TypeError(`unknown grammar: ${grammar}`);
  return grammar;
}

/** Returns the prefixes of selectors with their namespaces, if some are declared. */
function namespacesOf(options) {
  const { namespaces, grammar } = options ?? {};
  if (namespaces == null) return null;
  if (typeof namespaces !== 'object') throw new TypeError('namespaces are texts by their prefixes');
  if (grammar === PORT) throw new TypeError('the grammar of the Rust crate has no namespaces');
  return [...textsOf(namespaces)];
}

/** Returns the error of a text that is no list of selectors, where a tree declares names. */
export function refusedList(text, grammar, tree) {
  const [row, column, ...reason] = (refusal(text, grammar, tree) || '1 1 refused').split(' ');
  return new SelectorError(reason.join(' '), Number(row), Number(column));
}

/** Returns the row, the column and the reason of why a text is no list of selectors, where a tree declares names. */
export function refusal(text, grammar, tree = treeOf([], [])) {
  return call('refusal', [encode(text), NUMBERS[grammar], tree], { hasTree: true });
}

/** Returns a tree as calls of the library take it: four numbers of each element, two of each attribute in a namespace, the strings
 * of all, names of states, and prefixes with the numbers of their namespaces. */
function treeOf(shapes, strings, places = [], states = [], prefixes = []) {
  const elements = Object.assign(sizes(shapes), { count: shapes.length / 4 });
  const attributes = Object.assign(sizes(places), { count: places.length / 2 });
  const all = [...strings, ...states, ...prefixes.map(([prefix]) => prefix)];
  const numbers = sizes(prefixes.map(([, number]) => number));
  return { arrays: [elements, ...joined(all), attributes, BigInt(states.length), numbers] };
}

/** An element of a tree. */
export class Element {
  #elements;

  constructor(tree, index, elements) {
    this.tree = tree;
    /** Its number in the tree, from 0, in the order of the document. */
    this.index = index;
    this.#elements = elements;
  }

  get name() { return this.#elements.names[this.index]; }
  get attributes() { return this.#elements.attributes[this.index]; }
  get states() { return this.#elements.states[this.index]; }
  get depth() { return this.#elements.depths[this.index]; }
  /** Where its start tag begins, if that is known. */
  get row() { return this.#elements.places[this.index]?.row ?? null; }
  get column() { return this.#elements.places[this.index]?.column ?? null; }
  /** Its namespace, or null if it is in none. */
  get namespace() { return this.#elements.spaces[this.index] || null; }
  get isDrawn() { return this.namespace === SPACE_OF_SVG; }
  /** Where its start tag and its end tag begin and end in the text that the tree was read from, if it has them there. */
  get startTag() { return this.#elements.written?.startTag(this.index) ?? null; }
  get endTag() { return this.#elements.written?.endTag(this.index) ?? null; }
  /** Where its attributes are there, by their names: each from its name to the end of its value, with quotes. */
  get attributePlaces() { return this.#elements.written?.attributePlaces(this.index) ?? new Map(); }
  /** The text of it and of all elements in it, if the tree was read from a text. */
  get text() { return this.#elements.written?.text(this.index, this.#elements.endOf(this.index)) ?? null; }
  /** The node that it was made from. */
  get node() { return this.#elements.nodes[this.index] ?? null; }
  get parent() { return this.tree.elements[this.#elements.parents[this.index]] ?? null; }
  get children() { return this.#elements.childrenOf(this.index).map(index => this.tree.elements[index]); }

  /** Whether one of the selectors matches it, which is also what `:scope` matches. */
  matches(selectors, options) {
    const question = this.#elements.question(selectors, options, this.index);
    return this.#elements.found(question, this.index, this.index + 1).length > 0;
  }

  /** Returns it or its nearest ancestor that one of the selectors matches. `:scope` matches the element itself. */
  closest(selectors, options) {
    const question = this.#elements.question(selectors, options, this.index);
    let index = this.index;
    while (index >= 0 && this.#elements.found(question, index, index + 1).length === 0) index = this.#elements.parents[index];
    return this.tree.elements[index] ?? null;
  }

  /**
   * Returns the elements within it that one of the selectors matches, in order. `:scope` matches the element itself:
   * `select(':scope > p')` returns its children.
   */
  select(selectors, options) {
    const question = this.#elements.question(selectors, options, this.index);
    const found = this.#elements.found(question, this.index + 1, this.#elements.endOf(this.index));
    return found.map(index => this.tree.elements[index]);
  }
}

/** The elements of a tree in columns, and what selectors match of them. */
class Elements {
  names = [];
  attributes = [];
  // Of each element with attributes in namespaces: `plain` are those in none, and `spaced` the namespace, the local name and the
  // value of each other one.
  spacedAttributes = new Map();
  // The indices of the parents, and -1 of an element without one.
  parents = [];
  depths = [];
  states = [];
  // The namespace of each, and nothing of an element in none. That of one of HTML may not be known.
  spaces = [];
  places = [];
  nodes = [];
  reading = AS_WRITTEN;
  // Where the tags of a page are, and its texts, if it was read here.
  written = null;
  #texts = [];
  #arrays = new Map();
  // What the library keeps, by the prefixes that are declared.
  #pages = new Map();
  #questions = new Map();
  #ends;
  #children;
  #states;

  add({ name, attributes, parent, states, space, place, node, hasText }) {
    this.names.push(name);
    this.attributes.push(attributes);
    this.parents.push(parent);
    this.depths.push(parent < 0 ? 0 : this.depths[parent] + 1);
    this.states.push(states);
    this.spaces.push(space === undefined && this.reading !== AS_WRITTEN ? SPACE_OF_HTML : space ?? '');
    this.places.push(place);
    if (node) this.nodes.push(node);
    this.#texts.push(hasText);
    return this.names.length - 1;
  }

  /** Returns the same elements in other states, which are those of each by its own. */
  inStates(statesOf) {
    const found = new Elements();
    found.reading = this.reading;
    found.spacedAttributes = this.spacedAttributes;
    this.names.forEach((name, index) => {
      const [attributes, parent, space] = [this.attributes[index], this.parents[index], this.spaces[index]];
      found.add({ name, attributes, parent, space, states: statesOf(this.states[index]), hasText: this.#texts[index] });
    });
    return found;
  }

  childrenOf(index) {
    if (!this.#children) {
      this.#children = this.names.map(() => []);
      this.parents.forEach((parent, child) => { if (parent >= 0) this.#children[parent].push(child); });
    }
    return this.#children[index];
  }

  /** Returns the index after the last element within an element. */
  endOf(index) {
    if (!this.#ends) {
      this.#ends = this.names.map((_, at) => at + 1);
      for (let at = this.names.length - 1; at >= 0; at -= 1) {
        const parent = this.parents[at];
        if (parent >= 0) this.#ends[parent] = Math.max(this.#ends[parent], this.#ends[at]);
      }
    }
    return this.#ends[index];
  }

  /**
   * Returns the question which elements a list of selectors matches, where `:scope` matches the element at an index, or the root:
   * its answer for all elements is kept, once they were asked.
   */
  question(given, options, scope = -1) {
    expectOptions(options, ['grammar', 'namespaces']);
    const { source: selectors, grammar } = given?.[READ] ?? { source: given, grammar: grammarOf(options) };
    const namespaces = namespacesOf({ ...options, grammar }) ?? [];
    const question = { selectors, bytes: encode(selectors), grammar, namespaces, scope: -1, tested: 0 };
    if (scope >= 0 && grammar === MODERN && mayNameScope(selectors)) return { ...question, scope };
    const key = JSON.stringify([grammar, selectors, namespaces]);
    if (!this.#questions.has(key)) {
      if (this.#questions.size >= MOST_QUESTIONS) this.#questions.clear();
      this.#questions.set(key, question);
    }
    return this.#questions.get(key);
  }

  /**
   * Returns the indices of the elements from one up to another that match, in order. When as many were asked as there are, all are:
   * then an answer takes no longer than to look.
   */
  found(question, start = 0, end = this.names.length) {
    const count = this.names.length, isOfAll = question.grammar === PORT || LISTED.test(question.selectors);
    if (!question.found) {
      question.tested += isOfAll ? count : OF_QUESTION + end - start;
      if (question.tested < count) return this.#ask(question, start, end);
      question.found = this.#ask(question, 0, count);
    }
    const { found } = question;
    return found.slice(placeIn(found, start), placeIn(found, end));
  }

  /** Returns the indices of the elements from one up to another that match, and by the grammar of the Rust crate of all. */
  #ask(question, start, end) {
    const { selectors, bytes, grammar, namespaces, scope } = question;
    const found = grammar === PORT ? this.#foundByPort(bytes) : this.#page(namespaces).select(bytes, scope, start, end);
    if (found) return found;
    // They are read with the names that the tree declares.
    throw refusedList(selectors, grammar, treeOf([], [], [], namedStates(this.#allStates()), this.#numbered(namespaces)));
  }

  /** Returns the indices of the elements that selectors of the Rust crate match, or null where they are refused. */
  #foundByPort(bytes) {
    const room = 1024 + 8 * this.names.length;
    const written = askPort(PORT_SELECTED, [bytes, sizes([])], NO_LIMIT, this.arrays(PORT), { room });
    return written === null ? null : written.split('\n').slice(0, -1).map(number => number - 1);
  }

  /** Returns the page that the library keeps, where prefixes of these namespaces are declared. */
  #page(namespaces) {
    const key = JSON.stringify(namespaces);
    if (!this.#pages.has(key) || this.#pages.get(key).isLeft) {
      if (this.#pages.size >= MOST_PAGES) this.close();
      const tree = namespaces.length > 0 ? this.#makeArrays(MODERN, namespaces) : this.arrays(MODERN);
      this.#pages.set(key, new KeptPage(tree, this.reading));
    }
    return this.#pages.get(key);
  }

  /** Lets the pages go that the library keeps. */
  close() {
    for (const page of this.#pages.values()) page.close();
    this.#pages.clear();
  }

  /**
   * Returns for each element the numbers of the modern selectors that match it, which begin at 1, with spaces between them.
   * More numbers than `limit` are an error.
   */
  matched(selectors, limit) {
    const count = this.names.length;
    // A line is the number of an element, a colon, the numbers with a space before each, and its end.
    const numbers = limited(limit * (1 + `${selectors.length}`.length));
    const most = BigInt(count * (2 + `${count}`.length)) + numbers;
    const written = call('match_selectors', [...joined(selectors), ...this.words(MODERN)], {
      room: 1024 + 32 * count, most: most < NO_LIMIT ? most : NO_LIMIT, hasTree: true,
    });
    return written.split('\n').slice(0, -1).map(line => line.slice(line.indexOf(':') + 1));
  }

  /** Whether an element is in another namespace than that of HTML. */
  isForeign(index) {
    return !['', SPACE_OF_HTML].includes(this.spaces[index]);
  }

  /** Returns the `style` attribute of an element. */
  styleOf(index) {
    const attributes = this.spacedAttributes.get(index)?.plain ?? this.attributes[index];
    return new Map(attributes).get('style') ?? '';
  }

  /**
   * Returns what a query of sheets is asked of each element: how many winners or rules it has, and so many numbers for each of
   * these. More of them than `limit` are an error. `names` are those of a property, and `own` the `style` attributes.
   */
  numbers(asked, sheets, width, limit, { names = [], own = [] } = {}) {
    const [grammar, tree] = this.words(MODERN), count = this.names.length;
    const most = BigInt(count) + BigInt(width) * limited(limit);
    const texts = own.some(Boolean) ? own.flatMap(each => [each, '']) : [];
    const query = new KeptQuery(tree, grammar, sheets, NO_LIMIT, { arrays: joined(texts) });
    try {
      const options = { room: 1024 + ROOM_FOR_ELEMENT * count, most: most < NO_LIMIT ? most : NO_LIMIT };
      return query.numbers(asked, names, 0, count, options);
    } finally {
      query.close();
    }
  }

  /** Returns the number of a grammar, of the modern one as the document reads it, and the tree, as calls of the library take them. */
  words(grammar) {
    return [grammar === PORT ? NUMBERS[PORT] : this.reading, this.arrays(grammar)];
  }

  /** Returns the tree as calls of the library for a grammar take it. */
  arrays(grammar) {
    if (!this.#arrays.has(grammar)) this.#arrays.set(grammar, this.#makeArrays(grammar));
    return this.#arrays.get(grammar);
  }

  /** The namespaces of elements and attributes that the library may know in sheets, in the order of their numbers from 1 on. */
  get namespaces() {
    return [...this.#spaceNumbers().keys()].slice(1, 1 + MOST_KNOWN);
  }

  /** Returns the numbers of namespaces. That of no namespace is 0, that of HTML 1. */
  #spaceNumbers() {
    const spaced = [...this.spacedAttributes.values()].flatMap(each => each.spaced.map(([space]) => space));
    const every = [...new Set(['', SPACE_OF_HTML, ...this.spaces, ...spaced])];
    return new Map(every.map((space, number) => [space, number > MOST_KNOWN ? number + 1 : number]));
  }

  #makeArrays(grammar, namespaces = []) {
    const spaces = this.#spaceNumbers(), every = this.#allStates();
    const shapes = [], strings = [], named = namedStates(every), numbers = { ...STATES };
    named.forEach((state, at) => { numbers[state] = FIRST_NAMED * 2 ** at; });
    this.names.forEach((name, index) => {
      const plain = grammar === MODERN && this.spacedAttributes.get(index)?.plain;
      const attributes = [...this.#compared(plain || this.attributes[index], grammar)];
      const states = every[index].reduce((sum, state) => sum + numbers[state], this.#texts[index] ? HAS_TEXT : 0);
      shapes.push(this.depths[index], attributes.length, states, spaces.get(this.spaces[index]));
      strings.push(this.#comparedName(name));
      for (const [key, value] of attributes) strings.push(key, value);
    });
    const places = [];
    for (const [index, { spaced }] of grammar === MODERN ? this.spacedAttributes : []) {
      places.push(...spaced.flatMap(([space]) => [index, spaces.get(space)]));
      strings.push(...spaced.flatMap(([, name, value]) => [this.#comparedName(name), value]));
    }
    return treeOf(shapes, strings, places, named, this.#numbered(namespaces));
  }

  /** Returns prefixes with the numbers of their namespaces. One that no element is in has a number of none. */
  #numbered(namespaces) {
    const spaces = this.#spaceNumbers();
    return namespaces.map(([prefix, space]) => [prefix, spaces.get(space) ?? spaces.size + 1]);
  }

  #comparedName(name) {
    return this.reading === AS_WRITTEN ? name : lower(name);
  }

  /** Returns the states of each element, with those that attributes decide of elements of HTML in XML. */
  #allStates() {
    const isXHTML = this.reading === AS_WRITTEN && this.spaces.includes(SPACE_OF_HTML);
    if (!this.#states) {
      const decided = isXHTML ? this.#decidedStates() : [];
      this.#states = this.states.map((own, index) => [...new Set([...own, ...decided[index] ?? []])]);
    }
    return this.#states;
  }

  /**
   * Returns the states of each element that attributes decide, where those in the namespace of HTML have its names. Any other element
   * is in a state that all elements of HTML share, alone.
   */
  #decidedStates() {
    const shapes = [], strings = [], isHTML = this.spaces.map(space => space === SPACE_OF_HTML), caseless = CASELESS.get(HTML);
    this.names.forEach((name, index) => {
      const own = this.spacedAttributes.get(index)?.plain ?? this.attributes[index], attributes = isHTML[index] ? [...own] : [];
      shapes.push(this.depths[index], attributes.length, this.#texts[index] ? HAS_TEXT : 0, 1);
      strings.push(isHTML[index] ? name : OF_NO_HTML);
      for (const [key, value] of attributes) strings.push(key, caseless.has(key) ? lower(value) : value);
    });
    const words = [...joined(DECIDED.map(each => `:${each}`)), HTML, treeOf(shapes, strings)];
    const written = call('match_selectors', words, { room: 1024 + 32 * this.names.length, most: NO_LIMIT, hasTree: true });
    return written.split('\n').slice(0, -1).map((line, index) => {
      const found = line.slice(line.indexOf(':') + 1).split(' ').filter(Boolean).map(number => DECIDED[number - 1]);
      return isHTML[index] ? found : found.filter(each => OF_ALL.has(each));
    });
  }

  /** Returns attributes as they are compared. Of two that have one name then, the first. */
  #compared(attributes, grammar) {
    if (this.reading === AS_WRITTEN && grammar === MODERN) return attributes;
    const caseless = CASELESS.get(this.reading), found = new Map();
    for (const [name, value] of attributes) {
      const key = caseless ? lower(name) : name;
      // By the grammar of the Rust crate, spaces alone part the words of a class.
      const words = grammar === PORT && key === 'class' ? value.replace(/[\t\n\f\r]/g, ' ') : value;
      if (!found.has(key)) found.set(key, caseless?.has(key) ? lower(words) : words);
    }
    return found;
  }
}

/** Returns the names of states that elements are in and the library does not number. */
function namedStates(states) {
  const named = [...new Set(states.flat())].filter(name => !Object.hasOwn(STATES, name));
  if (named.length > MOST_NAMED) throw new RangeError(`more than ${MOST_NAMED} states: ${named[MOST_NAMED]}`);
  return named;
}

/** Whether a text may have `:scope` in it, or `&`, which denotes it outside of style sheets. */
function mayNameScope(selectors) {
  return ['\\', '&'].some(each => selectors.includes(each)) || lower(selectors).includes('scope');
}

/** Returns how many of indices in order are before one. */
function placeIn(indices, index) {
  let low = 0, high = indices.length;
  while (low < high) {
    const middle = low + high >> 1;
    if (indices[middle] < index) low = middle + 1;
    else high = middle;
  }
  return low;
}

/** Elements in the order of the document, which selectors are matched against. */
export class Tree {
  #elements = new Elements();
  #all;
  #numbers;

  /** Takes elements in the order of the document: a parent comes before its children. */
  constructor(items = []) {
    const last = [];
    for (const item of items) {
      const { name, attributes = {}, parent, row, column, states = [], text = '' } = item;
      const index = this.#elements.names.length;
      const depth = parent == null ? 0 : this.#elements.depths[parent] + 1;
      if (parent != null && last[depth - 1] !== parent) {
        throw new TreeError('its parent is not one of the open elements', index);
      }
      last.length = depth;
      last.push(index);
      if (typeof name !== 'string' || name === '') throw new TreeError('its name is empty', index);
      this.#elements.add({
        name, attributes: textsOf(attributes), parent: parent ?? -1, states: statesOf(states), place: { row, column },
        hasText: text !== '',
      });
    }
  }

  /**
   * Returns the tree of a document, a fragment or an element of a DOM, of parse5 or of domhandler, or of a page in HTML as a text, or
   * the tree itself.
   */
  static from(root) {
    if (root instanceof Tree) return root;
    if (typeof root === 'string' && PAGE_NAME.test(root)) throw new TypeError(`'${root}' is the name of a page, not its text`);
    if (typeof root === 'string') return Tree.fromHTML(root);
    if (isOfDomhandler(root)) return Tree.fromDomhandler(root);
    return typeof root?.nodeType === 'number' ? Tree.fromDOM(root) : Tree.fromParse5(root);
  }

  /**
   * Reads a page in HTML, as browsers do without scripts; or the content of the element `context`, such as `td`, and with `isPart` of a
   * `body`. What is in a template is left out. A page in bytes is in the encoding that it names, or in that of the label `encoding`,
   * which a server names.
   */
  static fromHTML(given, options) {
    expectOptions(options, ['isPart', 'context', 'encoding']);
    const isText = !(given instanceof Uint8Array), label = options?.encoding, context = options?.isPart ? 'body' : options?.context;
    if (isText) expectText(given);
    if (context !== undefined) expectText(context);
    if (options?.isPart && options.context !== undefined) throw new TypeError('isPart is a context of its own');
    if (isText && label !== undefined) throw new TypeError('a text has no encoding: pass the bytes');
    const text = isText ? given : decodedPage(given, label);
    const tree = new Tree(), all = tree.#elements, page = pageOf(text, context);
    all.reading = page.isQuirky ? QUIRKS : HTML;
    all.written = page.written;
    for (const { spaced, ...each } of page.elements) {
      const index = all.add({ ...each, states: isLink(each.name, each.space, each.attributes) ? ['link'] : [] });
      const found = spacedAttributes(spaced, HTML);
      if (found) all.spacedAttributes.set(index, found);
    }
    return tree;
  }

  /** Reads a document in XML, as SVG or XHTML. One that is not well-formed throws a `SyntaxError`. */
  static fromXML(text) {
    expectText(text);
    const tree = new Tree(), all = tree.#elements, page = documentOf(text);
    all.reading = AS_WRITTEN;
    all.written = page.written;
    for (const { spaced, ...each } of page.elements) {
      const index = all.add({ ...each, states: isLink(each.name, each.space, each.attributes) ? ['link'] : [] });
      const found = spacedAttributes(spaced, AS_WRITTEN);
      if (found) all.spacedAttributes.set(index, found);
    }
    return tree;
  }

  /** Takes the elements of a DOM: of a document, a fragment, or an element. */
  static fromDOM(root) {
    if (![IS_ELEMENT, IS_DOCUMENT, IS_FRAGMENT].includes(root?.nodeType)) throw new TypeError('a node of a DOM is expected');
    const page = root.nodeType === IS_DOCUMENT ? root : root.ownerDocument;
    const isHTML = (page.contentType ?? 'text/html') === 'text/html';
    const quirks = page.compatMode === 'BackCompat' ? QUIRKS : HTML;
    return Tree.#taken(root, isHTML ? quirks : AS_WRITTEN, {
      isElement: node => node.nodeType === IS_ELEMENT,
      isText: node => (node.nodeType === IS_TEXT || node.nodeType === IS_CDATA) && node.data !== '',
      nameOf: node => node.localName,
      attributesOf: node => isHTML ? Array.from(node.attributes, each => [each.name, each.value]) : localAttributes(node),
      spacedOf: node => Array.from(node.attributes, each => [each.namespaceURI, each.localName, each.value]),
      placeOf: () => undefined,
    });
  }

  /** Takes the elements that parse5 has read: of a document, a fragment, or an element. */
  static fromParse5(root) {
    if (!Array.isArray(root?.childNodes)) throw new TypeError('a node of a DOM, of parse5 or of domhandler, a page as a text, or a tree is expected');
    const reading = topOf(root).mode === 'quirks' ? QUIRKS : HTML;
    return Tree.#taken(root, reading, {
      isElement: node => node.tagName !== undefined,
      isText: node => node.nodeName === '#text' && node.value !== '',
      nameOf: node => node.tagName,
      attributesOf: node => node.attrs.map(({ prefix, name, value }) => [prefix ? `${prefix}:${name}` : name, value]),
      spacedOf: node => node.attrs.map(({ namespace, name, value }) => [namespace, name, value]),
      placeOf: ({ sourceCodeLocation: place }) => place && { row: place.startLine, column: place.startCol },
    });
  }

  /** Takes the elements that domhandler has of what htmlparser2 or parse5 read: of a document or an element, as cheerio has them. With
   * the declaration of XML before it, a document is XML. */
  static fromDomhandler(root) {
    if (!isOfDomhandler(root)) throw new TypeError('a node of domhandler is expected');
    const { children: nodes = [], 'x-mode': mode } = topOf(root), isDirective = name => ({ type, name: own }) => (
      type === 'directive' && lower(own) === name);
    const isXML = mode === undefined && nodes.some(isDirective('?xml'));
    const hasDoctype = mode === undefined ? nodes.some(isDirective('!doctype')) : mode !== 'quirks';
    return Tree.#taken(root, isXML ? AS_WRITTEN : hasDoctype ? HTML : QUIRKS, {
      isElement: ({ type }) => ELEMENT_TYPES.has(type),
      isText: ({ type, data, children }) => (type === 'cdata' ? children.some(each => each.data !== '') : type === 'text' && data !== ''),
      nameOf: node => (isXML ? node.name.slice(node.name.indexOf(':') + 1) : node.name),
      attributesOf: node => Object.entries(node.attribs),
      spacedOf: node => Object.entries(node.attribs).map(([name, value]) => (
        [node['x-attribsNamespace']?.[name], name.slice(name.indexOf(':') + 1), value])),
      spaceOf: node => node.namespace,
      // What a template has is in no document of HTML.
      childrenOf: node => (!isXML && node.name === 'template' ? [] : node.children),
      placeOf: ({ sourceCodeLocation: place }) => place && { row: place.startLine, column: place.startCol },
    });
  }

  /** Takes the elements of nodes. */
  static #taken(root, reading, {
    isElement, isText, nameOf, attributesOf, spacedOf, placeOf, spaceOf = node => node.namespaceURI, childrenOf = node => node.childNodes,
  }) {
    const tree = new Tree(), elements = tree.#elements;
    elements.reading = reading;
    const waiting = [[root, -1]];
    while (waiting.length > 0) {
      const [node, parent] = waiting.pop();
      const children = Array.from(childrenOf(node));
      let index = -1;
      if (isElement(node)) {
        const name = nameOf(node), attributes = new Map(attributesOf(node));
        const space = spaceOf(node), states = isLink(name, space, attributes) ? ['link'] : [];
        index = elements.add({
          name, attributes, parent, states, space, place: placeOf(node), node,
          hasText: children.some(isText),
        });
        const spaced = spacedAttributes(spacedOf(node), reading);
        if (spaced) elements.spacedAttributes.set(index, spaced);
      }
      for (const child of children.reverse()) if (isElement(child)) waiting.push([child, index]);
    }
    return tree;
  }

  get length() { return this.#elements.names.length; }

  /** The elements, in the order of the document. */
  get elements() {
    this.#all ??= this.#elements.names.map((_, index) => new Element(this, index, this.#elements));
    return this.#all;
  }

  [Symbol.iterator]() { return this.elements[Symbol.iterator](); }

  /** Returns the element that was made from a node. */
  elementOf(node) {
    this.#numbers ??= new Map(this.#elements.nodes.map((each, index) => [each, index]));
    return this.elements[this.#numbers.get(node)] ?? null;
  }

  /** Returns the elements that one of the selectors matches, in order. */
  select(selectors, options) {
    return this.#elements.found(this.#elements.question(selectors, options)).map(index => this.elements[index]);
  }

  /** Returns the first element that one of the selectors matches, or null. */
  selectOne(selectors, options) {
    return this.select(selectors, options)[0] ?? null;
  }

  /** Lets go what the library keeps of it before it is unreachable. It may still be asked. */
  close() {
    this.#elements.close();
  }

  /** Returns the elements as the other modules use them. */
  static elementsOf(tree) {
    return tree.#elements;
  }
}
// `using tree = Tree.from(document)` closes it.
if (Symbol.dispose) Tree.prototype[Symbol.dispose] = Tree.prototype.close;

/** Returns texts by their names: attributes, or namespaces. */
function textsOf(texts) {
  const found = new Map(typeof texts[Symbol.iterator] === 'function' ? texts : Object.entries(texts));
  for (const [key, value] of found) {
    expectText(key);
    expectText(value);
  }
  return found;
}

function statesOf(names) {
  const found = [...new Set(names)];
  for (const name of found) if (!isState(name)) throw new TypeError(`unknown state: ${name}`);
  return found;
}

/** Whether a state has a number, is a direction, or has letters and hyphens alone and is the caller's own, which two hyphens
 * begin, or the library reads it after a colon. */
function isState(name) {
  if (Object.hasOwn(STATES, name) || DIRECTIONS.includes(name)) return true;
  const isName = [...lower(name)].every(each => each === '-' || each >= 'a' && each <= 'z');
  return isName && name.startsWith('--') || isName && askList(encode(`:${name}`), NUMBERS[MODERN], () => true) !== null;
}

/** Returns attributes by local name. One without a namespace comes before one that has one. */
function localAttributes(node) {
  const own = Array.from(node.attributes, each => [each.localName, each.value, each.namespaceURI]);
  const names = new Set(own.filter(each => !each[2]).map(each => each[0]));
  return own.filter(each => !each[2] || !names.has(each[0]));
}

/** Returns the attributes in no namespace and the others, if there are others. In XML, that of the language is the `lang` that
 * `:lang()` tests, too. */
function spacedAttributes(all, reading) {
  const spaced = all.filter(([space]) => space);
  if (spaced.length === 0) return null;
  const plain = new Map(all.filter(([space]) => !space).map(([, name, value]) => [name, value]));
  const language = spaced.find(([space, name]) => space === SPACE_OF_XML && name === 'lang');
  if (reading === AS_WRITTEN && language && !plain.has('lang')) plain.set('lang', language[2]);
  return { plain, spaced };
}

function isLink(name, space, attributes) {
  if (name === 'a') return attributes.has('href') || space === SPACE_OF_SVG && attributes.has('xlink:href');
  return name === 'area' && space === SPACE_OF_HTML && attributes.has('href');
}

/** Returns the node without a parent that a node is in. */
function topOf(node) {
  let top = node;
  while (top.parentNode ?? top.parent) top = top.parentNode ?? top.parent;
  return top;
}

/** Whether a value is a document or an element of domhandler. */
function isOfDomhandler(node) {
  return Array.isArray(node?.children) && (node.type === 'root' || ELEMENT_TYPES.has(node.type) && typeof node.attribs === 'object');
}

/** Returns the element of a tree that a node is, in the tree of all that the node is in. */
function elementOf(node) {
  if (node instanceof Element) return node;
  const found = Tree.from(topOf(node)).elementOf(node);
  if (!found) throw new TypeError('an element is expected');
  return found;
}

/** Returns what is asked of an element of a tree that is made for it alone, or of one that is there. */
function askedOf(node, ask) {
  const element = elementOf(node);
  try {
    return ask(element);
  } finally {
    if (element !== node) element.tree.close();
  }
}

/** Returns the elements of a tree, a document or a page as a text, or within an element, that one of the selectors matches, in order. */
export function select(root, selectors, options) {
  if (root instanceof Tree || root instanceof Element) return root.select(selectors, options);
  const isElement = root?.tagName !== undefined || ELEMENT_TYPES.has(root?.type) && isOfDomhandler(root);
  if (isElement) return askedOf(root, element => element.select(selectors, options).map(each => each.node));
  const tree = Tree.from(root);
  if (typeof root === 'string') return tree.select(selectors, options);
  try {
    return tree.select(selectors, options).map(each => each.node);
  } finally {
    tree.close();
  }
}

/** Whether one of the selectors matches an element. */
export function matches(element, selectors, options) {
  return askedOf(element, each => each.matches(selectors, options));
}

/** Returns the element or its nearest ancestor that one of the selectors matches. */
export function closest(element, selectors, options) {
  const found = askedOf(element, each => each.closest(selectors, options));
  return element instanceof Element ? found : found?.node ?? null;
}
