// The declarations that win on the elements of a tree, as the library finds them.
import { holds } from './device.mjs';
import { EXPLAINED, KeptQuery, MATCHES, NO_TREE, WINNERS, WINNERS_NAMED, decode, encode, joined, joinedBytes } from './library.mjs';
import { limited, mostWritten, sizes } from './library.mjs';
import { ENDS, edgesOf } from './nested.mjs';
import { declared } from './reading.mjs';
import { takenBytes } from './taken.mjs';
import { SPACE_OF_HTML } from './tree.mjs';

// How many numbers the library writes of a rule before those of its declarations, of each of these, of one that wins, and of one that
// is explained.
const OF_RULE = 9, OF_DECLARATION = 6, OF_WINNER = 2, OF_EXPLAINED = 3;

/** Yields the group rules of a sheet that hold, each of those in no other that does not. */
function* held({ source }, applies) {
  // Whether what is in each rule that is open applies.
  const around = [true];
  for (const { kind, condition } of source.data.includes(64) ? edgesOf(source) : []) {
    const isAsked = condition !== undefined && around.at(-1);
    if (kind === ENDS) around.pop();
    else around.push(isAsked ? applies(condition) : around.at(-1));
    if (isAsked && around.at(-1)) yield condition;
  }
}

/** Returns whether group rules apply: of equal ones it is asked once. */
function asked(media) {
  const known = new Map();
  return condition => {
    const key = `${condition.name} ${condition.prelude}`;
    if (!known.has(key)) known.set(key, holds(condition, media));
    return known.get(key);
  };
}

/** The rules of sheets that apply, in the order of the cascade, and what wins of these. */
export class Winning {
  #arrays;
  #sheets;
  #limit;
  #size;

  /**
   * Takes sheets that are read, with their blocks, without declarations with other values than may win. Rules with more declarations
   * than `limit` are an error.
   */
  constructor(sheets, media, limit, values) {
    const applies = asked(media), groups = new Map();
    for (const sheet of sheets) {
      for (const { name, prelude } of held(sheet, applies)) groups.set(`${name} ${prelude}`, [name, prelude]);
    }
    const texts = sheets.map(({ source: { data } }) => takenBytes(data, values)), pairs = [...groups.values()].filter(([name]) => name !== 'layer');
    this.#size = texts.reduce((sum, text) => sum + text.length, 0);
    this.#limit = limit;
    // A sheet without an origin is the author's, and one without a depth is in no group rule.
    const none = [sizes([]), sizes([])], words = pairs.flat().map(encode);
    this.#arrays = [...joinedBytes(texts), sizes([]), ...joinedBytes(words), ...none];
    // Which rules are read does not depend on what the namespaces are.
    this.#sheets = this.#sheetsOn([SPACE_OF_HTML]);
    /**
     * The rules: the number of the sheet of each, where its declarations begin there, these, its specificity, and how many bytes
     * the text of its selector has and the pseudo-element at the end of that.
     */
    this.rules = [...this.#read(sheets.map(each => each.source))];
    /** How many declarations the rules have. */
    this.count = this.rules.reduce((sum, rule) => sum + rule.declarations.length, 0);
  }

  /** Yields the rules. The declarations of each block are of all rules of a rule set. */
  * #read(sources) {
    const numbers = this.#asked(query => query.rules({ room: 1024 + this.#size })), blocks = new Map();
    for (let at = 0; at < numbers.length;) {
      const [sheet, start, , length, elementLength, ids, classes, types, count] = numbers.slice(at, at + OF_RULE);
      const first = at + OF_RULE, key = `${sheet} ${start}`;
      at = first + OF_DECLARATION * count;
      if (!blocks.has(key)) blocks.set(key, [...declarationsOf(sources[sheet], numbers.slice(first, at))]);
      yield { sheet, start, declarations: blocks.get(key), specificity: [ids, classes, types], length, elementLength };
    }
  }

  /** Returns the sheets as calls take them, where elements are in these namespaces. */
  #sheetsOn(namespaces) {
    return { arrays: [...this.#arrays, ...joined(namespaces)] };
  }

  /** Returns what is asked of a query of the sheets on no elements. */
  #asked(ask) {
    const query = new KeptQuery(NO_TREE, 0n, this.#sheets, limited(this.#limit), { arrays: joined([]) });
    try {
      return ask(query);
    } finally {
      query.close();
    }
  }

  /** Returns the text of each rule's selector, with its pseudo-element. */
  texts() {
    const options = { room: 1024 + 2 * this.#size, most: mostWritten(this.#size) };
    const data = this.#asked(query => query.texts(options));
    let end = 0;
    return this.rules.map(({ length }) => decode(data.subarray(end, end += length)));
  }

  /**
   * Yields for each element the numbers of the rules that match it, or whose pseudo-elements it has. More rules than `limit`
   * are an error.
   */
  * matching(elements, limit) {
    const numbers = elements.numbers(MATCHES, this.#sheetsOn(elements.namespaces), 1, limit);
    for (let at = 0, end; at < numbers.length; at = end) {
      end = at + 1 + numbers[at];
      yield numbers.slice(at + 1, end);
    }
  }

  /**
   * Returns the numbers of the declarations that apply to each element of a property with these names, and of the one that wins. `own`
   * are the `style` attributes. More declarations than `limit` are an error.
   */
  explained(elements, names, own, limit) {
    const sheets = this.#sheetsOn(elements.namespaces), most = Math.max(limit, elements.names.length);
    const every = elements.numbers(EXPLAINED, sheets, OF_EXPLAINED, limit, { names, own });
    return [every, elements.numbers(WINNERS_NAMED, sheets, OF_WINNER, most, { names, own })];
  }

  /** Returns what wins on each element, in the order of the cascade. More declarations than `limit` are an error. */
  on(elements, limit) {
    const numbers = elements.numbers(WINNERS, this.#sheetsOn(elements.namespaces), OF_WINNER, limit);
    const found = [];
    for (let at = 0; at < numbers.length;) {
      const end = at + 1 + OF_WINNER * numbers[at], winners = [];
      for (at += 1; at < end; at += OF_WINNER) winners.push(this.rules[numbers[at]].declarations[numbers[at + 1]]);
      found.push(winners);
    }
    return found;
  }
}

/** Yields the declarations of a block. */
function* declarationsOf(source, numbers) {
  for (let at = 0; at < numbers.length; at += OF_DECLARATION) {
    const [name, nameLength, value, valueLength, important, closed] = numbers.slice(at, at + OF_DECLARATION);
    const end = value + valueLength;
    yield declared(source, [name, end], [name, name + nameLength], [value, end], important !== 0, closed !== 0);
  }
}
