// Pages in HTML: what the library writes of one, by its tags, elements and texts.
import { NotWellFormed, decode, encodingOf, readPage, rowsOf } from './library.mjs';
import { Source, lastAtMost } from './reading.mjs';

// What is asked of a page: to leave out what is in templates; and that a text is XML.
const NO_TEMPLATES = 2n, IS_XML = 4n;
// The number of the namespace of declarations of prefixes in XML.
const DECLARING = 2;
// How many numbers an attribute, an element, another node and a merged tag have, and the kinds of other nodes that are texts.
const OF_ATTRIBUTE = 5, OF_ELEMENT = 6, OF_OTHER = 5, OF_MERGED = 2, CDATA = 2;
const SPACES = ['', 'http://www.w3.org/1999/xhtml', 'http://www.w3.org/2000/svg', 'http://www.w3.org/1998/Math/MathML'];
const XLINK = 'http://www.w3.org/1999/xlink', XML = 'http://www.w3.org/XML/1998/namespace', XMLNS = 'http://www.w3.org/2000/xmlns/';
// The attributes of SVG and MathML in HTML that are in namespaces, and their local names (HTML Standard, "Creating and inserting
// nodes").
const ADJUSTED = new Map([
  ...['actuate', 'arcrole', 'href', 'role', 'show', 'title', 'type'].map(name => [`xlink:${name}`, [XLINK, name]]),
  ['xml:lang', [XML, 'lang']], ['xml:space', [XML, 'space']], ['xmlns', [XMLNS, 'xmlns']], ['xmlns:xlink', [XMLNS, 'xlink']],
]);

/**
 * Returns the text of a page in bytes, as browsers read it. One without the name of an encoding is in UTF-8 if all of it can be, or
 * else in windows-1252.
 */
export function decodedPage(page, label) {
  const isKnown = label === undefined || encodingOf(new Uint8Array(), label).source === 'label';
  if (!isKnown) throw new RangeError(`no label of an encoding: '${label}'`);
  const { name, source } = encodingOf(page, label);
  if (name === 'replacement') return page.length > 0 ? '\ufffd' : '';
  const text = new TextDecoder(source === 'default' ? 'utf-8' : name, { fatal: source === 'default' });
  try {
    return text.decode(page);
  } catch (error) {
    if (source !== 'default') throw error;
    return new TextDecoder(name).decode(page);
  }
}

/** Takes numbers from the front of those that are left. */
class Numbers {
  #all;
  #at = 0;

  constructor(all) {
    this.#all = all;
  }

  take(count) {
    this.#at += count;
    return this.#all.slice(this.#at - count, this.#at);
  }

  rows(count, width) {
    return rowsOf(this.take(count * width), width);
  }

  rest() { return this.#all.slice(this.#at); }
}

/** Returns the strings that end at these offsets. */
function stringsOf(bytes, ends) {
  const whole = decode(bytes);
  const at = whole.length === bytes.length
    ? (start, end) => whole.slice(start, end) : (start, end) => decode(bytes.subarray(start, end));
  return ends.map((end, index) => at(ends[index - 1] ?? 0, end));
}

/** Where the tags of a page or of a document are, and what its texts say. */
class Written {
  #source;
  #parts;

  /**
   * Takes the text; of each tag its offsets; of each element its numbers; the tags of each element, by their numbers; the attributes of
   * a tag, those that count first, and five numbers and a name of each; and of each text how many elements begin before it, the number
   * of the one that it is in, and what it says.
   */
  constructor(source, parts) {
    this.#source = source;
    this.#parts = parts;
  }

  #place(start, end) {
    return { start: this.#source.index(start), end: this.#source.index(end) };
  }

  /** Returns where the start tag of an element is, or null. */
  startTag(index) {
    const [tag] = this.#parts.elements[index];
    return tag > 0 ? this.#place(...this.#parts.tags[tag - 1]) : null;
  }

  /** Returns where the end tag of an element is, or null. */
  endTag(index) {
    const [, , , , start, end] = this.#parts.elements[index];
    return start < end ? this.#place(start, end) : null;
  }

  /** Returns where the attributes of an element are, by their names. */
  attributePlaces(index) {
    const { attributes, attributesOf, nameOf, tagsOf } = this.#parts, found = new Map();
    for (const at of tagsOf(index).flatMap(attributesOf)) {
      const [start, , , , end] = attributes.slice(OF_ATTRIBUTE * at, OF_ATTRIBUTE * (at + 1)), name = nameOf(at);
      if (!found.has(name)) found.set(name, this.#place(start, end));
    }
    return found;
  }

  /** Returns the texts of the elements from one up to another, which is not in it. */
  text(index, end) {
    const { texts } = this.#parts, found = [];
    for (let at = lastAtMost(texts, index, ([begun]) => begun); at < texts.length; at += 1) {
      const [begun, parent, said] = texts[at];
      if (begun > end || begun > index && parent <= index) break;
      if (begun > index) found.push(said);
    }
    return found.join('');
  }
}

/** Returns the numbers from one up to another. */
const numbersFrom = (start, count) => Array.from({ length: count }, (_, at) => start + at);

/** Returns the index of the first attribute of each tag, by how many each has. */
function firstOfEach(counts) {
  let end = 0;
  return counts.map(count => (end += count) - count);
}

/** Returns the texts among other nodes: how many elements begin before each, the number of the one that it is in, and what it says. */
function textsOf(nodes, strings) {
  return nodes.map(([kind, begun, parent], at) => [kind, begun, parent, strings[at]]).filter(([kind]) => kind <= CDATA)
    .map(([, begun, parent, said]) => [begun, parent, said]);
}

/** Returns attributes, of which the first of a name counts. */
function firsts(pairs) {
  const found = new Map();
  for (const [name, value] of pairs) if (!found.has(name)) found.set(name, value);
  return found;
}

/**
 * Returns whether a page is in quirks mode, where its tags are, and its elements: of each its name, its attributes, the index of its
 * parent or -1, its namespace, its attributes with their namespaces if it is of SVG or MathML, where it begins, and whether it has a
 * text.
 */
export function pageOf(text, context) {
  const source = new Source(text), within = context === undefined ? {} : { space: 1n, context };
  const { numbers, strings } = readPage(source.data, { ...within, flags: NO_TEMPLATES });
  const left = new Numbers(numbers), [tags] = left.take(1), places = left.rows(tags, 2);
  const [attributes, elements, others, merged, isQuirky] = left.take(7);
  const counts = left.take(tags), ofAttributes = left.take(OF_ATTRIBUTE * attributes);
  const rows = left.rows(elements, OF_ELEMENT), nodes = left.rows(others, OF_OTHER), more = left.rows(merged, OF_MERGED);
  const texts = stringsOf(strings, left.take(2 * attributes + elements + others));
  const first = 2 * attributes, said = textsOf(nodes, texts.slice(first + elements));
  const begins = firstOfEach(counts), attributesOf = tag => numbersFrom(begins[tag - 1], counts[tag - 1]);
  const further = new Map(more.map(([element]) => [element, []]));
  for (const [element, tag] of more) further.get(element).push(tag);
  const tagsOf = index => [rows[index][0], ...further.get(index + 1) ?? []].filter(tag => tag > 0), nameOf = at => texts[2 * at];
  const withText = new Set(said.filter(([, , each]) => each !== '').map(([, parent]) => parent));
  return {
    isQuirky: isQuirky === 1,
    written: new Written(source, { tags: places, elements: rows, attributes: ofAttributes, texts: said, tagsOf, attributesOf, nameOf }),
    elements: rows.map(([tag, parent, , space], index) => {
      const own = firsts(tagsOf(index).flatMap(attributesOf).map(at => [texts[2 * at], texts[2 * at + 1]]));
      return {
        name: texts[first + index], attributes: own, parent: parent - 1, space: SPACES[space],
        spaced: space > 1 ? [...own].map(([name, value]) => [...ADJUSTED.get(name) ?? [null, name], value]) : [],
        place: tag > 0 ? source.position(places[tag - 1][0]) : undefined, hasText: withText.has(index + 1),
      };
    }),
  };
}

/** Returns the numbers and the strings of a document in XML. */
function readDocument(source) {
  try {
    return readPage(source.data, { flags: IS_XML });
  } catch (error) {
    if (!(error instanceof NotWellFormed)) throw error;
    const { row, column } = source.position(error.offset);
    throw new SyntaxError(`${row}:${column}: the document is not well-formed`);
  }
}

/**
 * Returns where the tags of a document in XML are, and its elements: of each its local name, its attributes by their local names, the
 * index of its parent or -1, its namespace, its attributes with their namespaces, where it begins, and whether it has a text.
 */
export function documentOf(text) {
  const source = new Source(text), { numbers, strings } = readDocument(source);
  const left = new Numbers(numbers), [tags] = left.take(1), places = left.rows(tags, 2);
  const [attributes, elements, others] = left.take(7), counts = left.take(tags), ofAttributes = left.take(OF_ATTRIBUTE * attributes);
  const rows = left.rows(elements, OF_ELEMENT), nodes = left.rows(others, OF_OTHER), spaces = left.take(attributes);
  const texts = stringsOf(strings, left.rest()), names = ['', ...texts.slice(2 * attributes + elements + others)];
  const first = 2 * attributes, said = textsOf(nodes, texts.slice(first + elements, first + elements + others));
  const begins = firstOfEach(counts), own = tag => numbersFrom(begins[tag - 1], counts[tag - 1]).filter(at => spaces[at] !== DECLARING);
  // One that is in no namespace counts before one of its name that is in one.
  const attributesOf = tag => [...own(tag).filter(at => spaces[at] === 0), ...own(tag).filter(at => spaces[at] > 0)];
  const tagsOf = index => [rows[index][0]], nameOf = at => texts[2 * at];
  const withText = new Set(said.filter(([, , each]) => each !== '').map(([, parent]) => parent));
  return {
    written: new Written(source, { tags: places, elements: rows, attributes: ofAttributes, texts: said, tagsOf, attributesOf, nameOf }),
    elements: rows.map(([tag, parent, , space], index) => ({
      name: texts[first + index], attributes: firsts(attributesOf(tag).map(at => [texts[2 * at], texts[2 * at + 1]])), parent: parent - 1,
      space: names[space], spaced: own(tag).map(at => [names[spaces[at]] || null, texts[2 * at], texts[2 * at + 1]]),
      place: source.position(places[tag - 1][0]), hasText: withText.has(index + 1),
    })),
  };
}
