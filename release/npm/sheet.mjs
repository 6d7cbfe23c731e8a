// Selectors and style sheets: which rules match the elements of a tree, and which declarations win on them.
import { deviceOf, holds } from './device.mjs';
import { explained } from './explaining.mjs';
import { IMPORTS, Lines, LimitError, NO_LIMIT, askList, askPort, decode, encode, expectOptions, sheetText } from './library.mjs';
import { PORT_MATCHES, PORT_RULES, PORT_SHEET, PORT_SKIPPED, PORT_STYLES, expectText, joined, limited, sizes } from './library.mjs';
import { Places, blocksOf, everyBlock, unsupportedIn } from './nested.mjs';
import { prettify } from './printing.mjs';
import { conditionsOf, lower, placed, readSheet, Source } from './reading.mjs';
import { decoded, originating, pseudoNames } from './tokens.mjs';
import { NUMBERS, PORT, ReadText, SelectorError, Tree, grammarOf, matches, refusedList } from './tree.mjs';
import { ANY_VALUE, valuesOn } from './taken.mjs';
import { unusedOf } from './unused.mjs';
import { Winning } from './winners.mjs';

// The limits where none is named: of the declarations of rules, and of the rules and declarations of an answer.
const USUAL_LIMIT = 1_000_000, USUAL_ANSWER_LIMIT = 10_000_000;
// What a sheet past its limit says.
const TOO_MANY = 'the rules would hold more declarations than the limit';
// How many times an answer's limit the declarations that are compared may be, as elements times those of all rules, before it is
// told how many they are.
const COMPARED = 10;
// The options of a sheet, and the at-rules that an `@import` may be after.
const SHEET_OPTIONS = ['grammar', 'limit', 'answerLimit'], FIRST = new Set(['charset', 'import', 'layer']);
// The group rules.
const GROUP_RULES = new Set(['media', 'supports', 'layer', 'container', 'document', '-moz-document']);
// How many numbers the library writes of a selector of a list.
const OF_LISTED = 10;
// How many bytes of an answer of the Rust crate's grammar a rule or a declaration may have on average.
const MOST_BYTES = 64;

/** A selector. As a string it is its text as the library prints it. */
export class Selector extends ReadText {
  #text;

  constructor(text, options) {
    expectOptions(options, ['grammar']);
    const grammar = grammarOf(options);
    const data = encode(text);
    super(text, grammar);
    const found = askList(data, NUMBERS[grammar], ask => [ask('numbers', { isNumbers: true }), ask('text', {})]);
    if (found === null) throw refusedList(text, grammar);
    const [numbers, printed] = found;
    if (numbers.length !== OF_LISTED) throw new SelectorError('more than one selector', 1, 1);
    const [start, length, , ids, classes, types, element, name] = numbers, end = start + length;
    this.#text = printed;
    this.specificity = [ids, classes, types];
    this.pseudoElement = element < end ? decoded(decode(data.subarray(name, end)), false) : null;
  }

  matches(element) { return matches(element, this); }
  toString() { return this.#text; }
}

/** How many rules and declarations an answer may yet have. */
class Room {
  constructor(limit) {
    this.left = this.limit = limit;
  }

  take(count) {
    this.left -= count;
    if (this.left < 0) throw new LimitError(`the answer would have more than ${this.limit} rules and declarations`);
  }
}

/** Returns the words of a value, between which is white space. */
export function wordsOf(text) {
  return text.split(/[\t\n\f\r ]+/).filter(word => word !== '');
}

/** The style sheet of texts, read one after another. Its rules are in the order of their specificity. */
export class StyleSheet {
  #texts;
  #grammar;
  #limit;
  #answerLimit;
  #read;
  #contents;
  #winningOn = new Map();

  constructor(texts, options) {
    expectOptions(options, SHEET_OPTIONS);
    this.#texts = typeof texts === 'string' ? [texts] : [...texts];
    this.#texts.forEach(expectText);
    this.#grammar = grammarOf(options);
    this.#limit = options?.limit ?? USUAL_LIMIT;
    this.#answerLimit = options?.answerLimit ?? USUAL_ANSWER_LIMIT;
    limited(this.#limit);
    limited(this.#answerLimit);
  }

  /** The rules, those of smaller specificity first. */
  get rules() { return this.#all().rules; }
  /** The rules whose selectors are valid and unsupported, in order. */
  get unsupported() { return this.#all().unsupported; }
  /** The at-rules that are no group rules, as `@font-face`, in order. */
  get atRules() { return this.#all().atRules; }

  /** What is skipped of the texts, in order. */
  get skipped() {
    const isPort = this.#grammar === PORT;
    const found = isPort ? this.#texts.map(skippedByPort) : this.#statements().map(({ source, statements }) => (
      { source, faults: faultsOf(statements) }));
    return found.flatMap(({ source, faults }, number) => faults.map(({ reason, text, span }) => {
      const [start, end] = span.map(at => source.index(at));
      return { ...source.position(span[0]), reason, text: text ?? source.at(span), source: number, start, end };
    }));
  }

  /** Returns what the texts have by the modern grammar. */
  #statements() {
    this.#read ??= this.#texts.map(readSheet).map(each => ({ ...each, blocks: blocksOf(each) }));
    return this.#read;
  }

  #all() {
    this.#contents ??= this.#grammar === PORT ? this.#contentsOfPort() : this.#contentsOfModern();
    return this.#contents;
  }

  #contentsOfPort() {
    const lines = new Lines(this.#askPort(PORT_RULES, { isBytes: true })), rules = [];
    while (lines.areLeft) rules.push(ruleOfPort(lines));
    return { rules, unsupported: [], atRules: [], nested: new Map() };
  }

  #contentsOfModern() {
    const read = this.#statements();
    this.#checkLimit();
    const spaced = new Set([...read.keys()].filter(sheet => read[sheet].statements.some(isNamespace)));
    const blocks = read.map((each, sheet) => spaced.has(sheet) ? everyBlock(each) : each.blocks);
    const nested = blocks.some(each => each.length) ? [...this.#placedRules(blocks)] : [];
    const supported = new Set(nested.map(each => `${each.block} ${each.text}`));
    // Of a rule without declarations the library does not say whether it knows its namespaces.
    const isKnown = ({ declarations, sheet }, block, text) => (
      spaced.has(sheet) && declarations.length === 0 || supported.has(`${block} ${text}`));
    const { rules, unsupported: outermost } = rulesOf(read, new Set(nested.map(each => each.block)), isKnown);
    const unsupported = [...outermost, ...this.#unsupportedIn(nested)].sort((a, b) => a.sheet - b.sheet || a.at - b.at);
    const every = [...rules, ...nested].sort(inOrder), starts = new Set(nested.map(each => each.start)), places = new Map();
    every.forEach(({ start }, index) => {
      if (starts.has(start)) places.set(start, [...places.get(start) ?? [], index]);
    });
    const atRules = read.flatMap(each => each.statements.flatMap(atRulesOf)).map(each => each.rule);
    return { rules: every.map(each => each.rule), unsupported: unsupported.map(each => each.rule), atRules, nested: places };
  }

  /**
   * Yields the rules of these blocks, as they stand in the texts: where the declarations of each are, where its block is, and the
   * rule. They are those of style rules with rules in them, and all of texts that declare namespaces.
   */
  * #placedRules(blocks) {
    const every = new Winning(this.#statements(), () => true, this.#limit, ANY_VALUE), texts = every.texts();
    const found = every.rules.map((rule, index) => ({ ...rule, text: texts[index] }));
    found.sort((a, b) => a.sheet - b.sheet || a.start - b.start);
    const places = blocks.map(each => new Places(each));
    for (const each of found) {
      const block = places[each.sheet].at(each.start);
      if (!block) continue;
      const rule = placed(nestedRule(each, block), this.#statements()[each.sheet].source, block.rule);
      yield { ...placedRule(each.sheet, each.start, block.span[0], rule), text: each.text };
    }
  }

  /** Yields the unsupported rules in style rules, and where each is. These are the supported ones. */
  * #unsupportedIn(nested) {
    const placed = this.#statements().map(() => new Map());
    for (const { sheet, first, text } of nested) {
      if (!placed[sheet].has(first)) placed[sheet].set(first, new Set());
      placed[sheet].get(first).add(text);
    }
    let left = this.#limit;
    for (const [sheet, { source, statements, blocks }] of this.#statements().entries()) {
      const own = new Set(statements.filter(each => each.kind === 'rule').map(each => each.head[1]));
      const inner = blocks.filter(each => !own.has(each.span[0]));
      for (const { block, selector, declarations } of unsupportedIn(source, inner, placed[sheet])) {
        left -= declarations.length;
        if (left < 0) throw new LimitError(TOO_MANY);
        const { conditions, parents } = block, rule = placed({ selector, declarations, conditions, parents }, source, block.rule);
        yield { sheet, at: block.span[0], rule };
      }
    }
  }

  #checkLimit() {
    const sets = this.#statements().flatMap(({ statements }) => statements.filter(each => each.kind === 'rule'));
    const count = sets.reduce((sum, each) => sum + each.selectors.length * each.declarations.length, 0);
    if (count > this.#limit) throw new LimitError(TOO_MANY);
  }

  /**
   * Returns the sheet as a text, with a line for each rule and each declaration. The `@import`s of further texts are before all rules,
   * since they count nowhere else.
   */
  toString() {
    if (this.#grammar === PORT) return this.#askPort(PORT_SHEET).slice(0, -1);
    const [first, ...others] = this.#statements();
    if (!first) return '';
    const found = others.map(({ source }) => withoutImports(source)), end = frontOf(first);
    const parts = [first.source.at([0, end]), ...found.flatMap(each => each.imports), first.source.at([end, first.source.data.length])];
    return [...parts, ...found.map(each => each.rest)].map(prettify).join('');
  }

  /** Returns what `JSON.stringify` writes of the sheet. */
  toJSON() {
    return { rules: this.rules, unsupported: this.unsupported, atRules: this.atRules };
  }

  /** Returns what is asked by the grammar of the Rust crate, of a tree or of none. */
  #askPort(asked, options, tree) {
    return askPort(asked, joined(this.#texts), limited(this.#limit), tree, options);
  }

  /** Returns for each element, or its node, the indices of the rules that match it, in order. */
  match(root, options) {
    const media = mediaOf(options);
    return this.#byElement(root, elements => {
      return this.#grammar === PORT ? this.#matchedByPort(elements) : this.#matched(elements, media);
    });
  }

  /**
   * Returns for each element, or its node, the winning declaration of each name, in the order of the cascade. One whose value no
   * browser takes wins nowhere unless `anyValue` is true.
   */
  styles(root, options) {
    const asked = askedOf(options);
    return this.#byElement(root, elements => (
      this.#grammar === PORT ? this.#winnersByPort(elements) : this.#winners(elements, asked)));
  }

  /** Returns for each element, or its node, the winning declaration of the name, or null. */
  style(root, name, options) {
    expectText(name);
    const found = new Map(), wanted = this.#grammar === PORT || name.startsWith('--') ? name : lower(name);
    for (const [element, winners] of this.styles(root, options)) {
      found.set(element, winners.find(each => each.name === wanted) ?? null);
    }
    return found;
  }

  /**
   * Returns for each element, or its node, the declarations of a property that apply to it, the strongest first, and the one that wins.
   * `names` are other properties that set it, such as its shorthands.
   */
  explain(root, name, options) {
    expectOptions(options, ['media', 'anyValue', 'names']);
    if (this.#grammar === PORT) throw new TypeError('a sheet of the modern grammar is expected');
    const { names = [], ...others } = options ?? {}, asked = askedOf(others), every = [name, ...names];
    every.forEach(expectText);
    return this.#byElement(root, elements => {
      const values = valuesOn(elements, asked.anyValue), winning = this.#winning(asked.media, values);
      return explained(this.#statements(), winning, elements, every, this.#answerLimit, values);
    });
  }

  /**
   * Returns the selectors that match no element of any of the pages, in order. Pseudo-elements, states as `:hover`, and the
   * conditions of group rules are taken as met. A selector that is not supported, or of whose states that cannot be said, is used.
   */
  unused(...roots) {
    if (this.#grammar === PORT) throw new TypeError('a sheet of the modern grammar is expected');
    return unusedOf(this.#statements(), roots.map(root => Tree.elementsOf(Tree.from(root))), this.#answerLimit);
  }

  /** Returns a value for each element of a tree, or for each node. */
  #byElement(root, valuesOf) {
    const tree = Tree.from(root);
    const values = valuesOf(Tree.elementsOf(tree));
    return new Map(tree.elements.map((each, index) => [tree === root ? each : each.node ?? each, values[index]]));
  }

  #matchedByPort(elements) {
    const lines = this.#askedOfPort(PORT_MATCHES, elements).split('\n').slice(0, -1);
    return this.#counted(lines.map(line => numbersIn(line).map(number => number - 1)));
  }

  #winnersByPort(elements) {
    const lines = new Lines(this.#askedOfPort(PORT_STYLES, elements, true)), found = [];
    while (lines.areLeft) found.push(declarationsOfPort(lines, lines.numbers()[0]));
    return this.#counted(found);
  }

  /** Returns what is asked of elements by the grammar of the Rust crate. A rule or a declaration may have many bytes of it. */
  #askedOfPort(asked, elements, isBytes = false) {
    const options = { room: 1024 + 64 * elements.names.length, most: limited(MOST_BYTES * this.#answerLimit), isBytes };
    return this.#askPort(asked, options, elements.arrays(PORT));
  }

  /** Returns an answer, if it is not too long. */
  #counted(answer) {
    new Room(this.#answerLimit).take(answer.reduce((sum, those) => sum + those.length, 0));
    return answer;
  }

  /** Returns for each element the indices of the rules that match it, in order. */
  #matched(elements, media) {
    const { nested } = this.#all(), inBlocks = new Set([...nested.values()].flat()), indices = [], groups = new Map();
    this.rules.forEach(({ conditions, pseudoElement }, index) => {
      if (pseudoElement !== null || inBlocks.has(index)) return;
      if (!groups.has(conditions)) groups.set(conditions, conditions.every(each => holds(each, media)));
      if (groups.get(conditions)) indices.push(index);
    });
    const lines = elements.matched(indices.map(index => this.rules[index].selector), this.#answerLimit);
    const plain = lines.map(line => numbersIn(line).map(number => indices[number - 1]));
    if (nested.size === 0) return this.#counted(plain);
    const others = [...this.#nestedOn(elements, media)];
    return this.#counted(plain.map((each, index) => [...each, ...others[index]].sort((a, b) => a - b)));
  }

  /** Yields for each element the indices of the rules that match it of those that the library places. */
  * #nestedOn(elements, media) {
    const winning = this.#winning(media, ANY_VALUE), taken = new Map();
    const kept = winning.rules.map(({ sheet, start }) => {
      const place = keyOf(sheet, start), turn = taken.get(place) ?? 0, index = this.#all().nested.get(place)?.[turn];
      taken.set(place, turn + 1);
      return index === undefined || this.rules[index].pseudoElement !== null ? null : index;
    });
    for (const numbers of winning.matching(elements, this.#answerLimit)) {
      yield numbers.map(number => kept[number]).filter(each => each !== null);
    }
  }

  #winners(elements, asked) {
    const winning = this.#winning(asked.media, valuesOn(elements, asked.anyValue));
    if (elements.names.length * winning.count > COMPARED * this.#answerLimit) this.#checkCompared(elements, asked.media);
    return winning.on(elements, this.#answerLimit);
  }

  /** Refuses more rules that match elements than the limit, and more declarations of rules that match one together. */
  #checkCompared(elements, media) {
    const compared = new Room(this.#answerLimit), known = new Set();
    for (const indices of this.#matched(elements, media)) {
      const key = indices.join(' ');
      if (!known.has(key)) compared.take(indices.reduce((sum, index) => sum + this.rules[index].declarations.length, 0));
      known.add(key);
    }
  }

  /** Returns the rules that apply on a device, with the values that may win. */
  #winning(media, values) {
    const read = this.#statements();
    this.#checkLimit();
    if (typeof media === 'function') return new Winning(read, media, this.#limit, values);
    const key = JSON.stringify([media, `${values}`]);
    if (!this.#winningOn.has(key)) this.#winningOn.set(key, new Winning(read, media, this.#limit, values));
    return this.#winningOn.get(key);
  }
}

/** Returns where what may be before an `@import` ends in a text. */
function frontOf({ statements }) {
  let end = 0;
  for (const { kind, rule, levels, span } of statements) {
    if (kind !== 'at-rule' || levels.length > 0 || rule.block !== null || !FIRST.has(rule.name)) break;
    end = span[1];
  }
  return end;
}

/** Returns the `@import`s of a text that are in force, and the text without them. */
function withoutImports(source) {
  const lines = new Lines(sheetText(source.data, IMPORTS, { isBytes: true })), imports = [], rest = [];
  let done = 0;
  while (lines.areLeft) {
    const [start, size, , ...lengths] = lines.numbers();
    for (const length of [lengths[0], lengths[2], lengths[4], lengths[5]]) lines.text(length);
    lines.endLine();
    imports.push(source.at([start, start + size]));
    rest.push(source.at([done, start]));
    done = start + size;
  }
  return { imports, rest: [...rest, source.at([done, source.data.length])].join('') };
}

/** Returns the numbers of a line, which have a space before each. */
const numbersIn = line => line.split(' ').slice(1);

/** Returns the next rule that the library writes by the grammar of the Rust crate. */
function ruleOfPort(lines) {
  const [ids, classes, types, length, count] = lines.numbers(), selector = lines.text(length);
  lines.endLine();
  const declarations = declarationsOfPort(lines, count);
  return { selector, specificity: [ids, classes, types], declarations, conditions: [], pseudoElement: null, parents: [] };
}

/** Returns so many declarations that the library writes. */
function declarationsOfPort(lines, count) {
  return Array.from({ length: count }, () => {
    const [nameLength, length, important] = lines.numbers(), name = lines.text(nameLength), value = lines.text(length);
    lines.endLine();
    return { name, value, important: important === 1 };
  });
}

/** Returns a text that says where something is, by the number of its sheet. */
const keyOf = (sheet, start) => `${sheet} ${start}`;

/** Returns a rule with the places of its declarations and its block. */
function placedRule(sheet, start, first, rule) {
  return { sheet, at: start, first, start: keyOf(sheet, start), block: keyOf(sheet, first), rule };
}

/** Compares two rules by their specificity, and by where they are. */
function inOrder(one, other) {
  const a = one.rule.specificity, b = other.rule.specificity;
  return a[0] - b[0] || a[1] - b[1] || a[2] - b[2] || one.sheet - other.sheet || one.at - other.at;
}

/** Whether a statement may declare a namespace. */
const isNamespace = ({ kind, rule }) => kind === 'at-rule' && rule.name === 'namespace';

/** Returns the rules of rule sets, of those whose blocks are not among these, and the unsupported ones of all that are not known. */
function rulesOf(read, blocks, isKnown) {
  const rules = [], unsupported = [];
  const sets = read.flatMap(({ source, statements }, sheet) => (
    statements.filter(each => each.kind === 'rule').map(set => ({ ...set, source, sheet }))));
  for (const set of sets) {
    const { selectors, declarations, levels, head: [, start], source, sheet } = set;
    const conditions = conditionsOf(levels), block = keyOf(sheet, start);
    for (const { text, front, specificity, pseudoElement, span } of selectors) {
      const whole = [span[0], set.span[1]];
      if (specificity === null) {
        const other = placed({ selector: text, declarations, conditions, parents: [] }, source, whole);
        if (!isKnown(set, block, text)) unsupported.push({ sheet, at: start, rule: other });
      } else if (!blocks.has(block)) {
        const rule = { selector: front, specificity, declarations, conditions, pseudoElement, parents: [] };
        rules.push(placedRule(sheet, start, start, placed(rule, source, whole)));
      }
    }
  }
  return { rules, unsupported };
}

/** Returns a rule in this block, whose selector has this text. */
function nestedRule({ text, elementLength, specificity, declarations }, { conditions, parents }) {
  const source = new Source(text), end = source.data.length, at = end - elementLength;
  const selector = elementLength ? beforeElement(text, at) : text;
  return { selector, specificity, declarations, conditions, pseudoElement: elementLength ? source.at([at, end]) : null, parents };
}

/** Returns the selector of the elements that a pseudo-element is of, whose name is from an offset on. */
function beforeElement(text, at) {
  const starts = pseudoNames(text).map(each => each.start).filter(start => start <= at);
  return originating(new Source(text).at([0, Math.max(...starts)]));
}

/** Returns the at-rule that a statement is, or those of its block that are no group rules, whose rules are read. */
function atRulesOf(statement) {
  if (statement.kind !== 'rule') return statement.kind === 'at-rule' ? [statement] : [];
  return statement.items.filter(({ kind, rule }) => (
    kind === 'at-rule' && (rule.block === null || !GROUP_RULES.has(rule.name))));
}

/** Returns what is skipped of statements and in the blocks of rule sets, in order. */
function faultsOf(statements) {
  return statements.flatMap(each => each.kind === 'rule' ? each.items : [each]).filter(each => each.kind === 'skipped');
}

/** Returns what the grammar of the Rust crate skips of a text. The text of a fault may lack blanks at its front. */
export function skippedByPort(text) {
  const source = new Source(text), words = [PORT_SKIPPED, [source.data, sizes([])], NO_LIMIT];
  const lines = new Lines(askPort(...words, undefined, { isBytes: true })), faults = [];
  while (lines.areLeft) {
    const [row, column, length, ...reason] = lines.line().split(' ');
    const start = source.offset(Number(row), Number(column)), first = source.index(start), part = lines.text(Number(length));
    const front = encode(source.text.slice(first, source.text.indexOf(part, first))).length;
    lines.endLine();
    faults.push({ reason: reason.join(' '), text: part, span: [start, start + front + Number(length)] });
  }
  return { source, faults };
}

/** Returns the device or the function of options. */
function mediaOf(options) {
  expectOptions(options, ['media']);
  const media = options?.media ?? 'screen';
  // What is no device is refused, whatever the sheet asks.
  if (typeof media !== 'function') deviceOf(media);
  return media;
}

/** Returns the device of options, and whether any value may win. */
function askedOf(options) {
  expectOptions(options, ['media', 'anyValue']);
  const { anyValue = false, ...others } = options ?? {};
  if (typeof anyValue !== 'boolean') throw new TypeError('`anyValue` is true or false');
  return { media: mediaOf(others), anyValue };
}

/** Returns the rules of a style sheet. */
export function rules(sheet, options) {
  return new StyleSheet(sheet, options).rules;
}

/** Returns for each element of a tree, or for each node, the declarations that win on it. */
export function styles(root, sheet, options) {
  expectOptions(options, [...SHEET_OPTIONS, 'media', 'anyValue']);
  const { media, anyValue, ...others } = options ?? {};
  return new StyleSheet(sheet, others).styles(root, { media, anyValue });
}
