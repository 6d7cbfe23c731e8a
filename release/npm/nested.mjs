// The rules in style rules, as the library finds them.
import { CONTENTS, sheetNumbers } from './library.mjs';
import { conditionAt, conditionsOf, declarationAt, isSupported } from './reading.mjs';
import { partsOfList } from './tokens.mjs';

// In how many rules one may be that is looked into.
const DEEPEST = 64;
// How the library names a rule in a style rule.
const NESTED = 'nested rule';
// How many numbers the library writes of each item in a style rule and where a block begins or ends; and how it numbers a
// declaration, the block of a style rule which begins, that of a group rule, and one that ends.
export const ENDS = 13;
const OF_CONTENT = 10, DECLARES = 0, BEGINS_STYLE = 3, BEGINS_GROUP = 12, EDGES = new Set([BEGINS_STYLE, BEGINS_GROUP, ENDS]);

/** Whether an item of a block is a rule. */
const isRule = ({ kind, rule, reason }) => kind === 'at-rule' ? rule.block !== null : reason === NESTED;

/**
 * Returns where a block begins or ends by its row of numbers: the offset after the brace, and before it of one that ends; and
 * where its rule begins.
 */
function edgeOf(source, [kind, start, , , name, nameLength, at, length, contents]) {
  if (kind === ENDS) return { kind, offset: start };
  if (kind === BEGINS_STYLE) return { kind, start, offset: at, prelude: source.at([start, name + nameLength]) };
  return { kind, start, offset: contents, condition: conditionAt(source, [name, name + nameLength], [at, at + length]) };
}

/**
 * Yields where the blocks of the rules of a sheet begin and end, with what is before the block of a style rule, or the group
 * rule.
 */
export function* edgesOf(source) {
  const numbers = sheetNumbers(source.data, CONTENTS, { room: 1024 + 2 * source.data.length });
  for (let at = 0; at < numbers.length; at += OF_CONTENT) {
    if (EDGES.has(numbers[at])) yield edgeOf(source, numbers.slice(at, at + OF_CONTENT));
  }
}

/** Returns edges, and for each at which a block begins where its contents end, and its rule. */
function withEnds(edges, size) {
  const begun = [], found = edges.map(edge => ({ ...edge, end: size, past: size }));
  for (const edge of found) {
    if (edge.kind === ENDS) Object.assign(begun.pop(), { end: edge.offset, past: edge.offset + 1 });
    else begun.push(edge);
  }
  return found;
}

/** Returns the rule that begins in another one: its block, what is before that of its style rule, and in how many rules it is. */
function openIn({ block, head, depth }, { kind, start, offset, end, past, prelude, condition }) {
  if (block === null || depth === DEEPEST) return { block: null, head, depth };
  const { parents, conditions } = block, span = [offset, end], rule = [start, past];
  return kind === BEGINS_STYLE
    ? { block: { span, rule, parents: [...parents, head], conditions, head: prelude }, head: prelude, depth: depth + 1 }
    : { block: { span, rule, parents, conditions: [...conditions, condition], head }, head, depth: depth + 1 };
}

/** Returns the block of a style rule that is in no other. */
function blockOf(source, { head, span, levels }) {
  return { span: [head[1], span[1]], rule: span, parents: [], conditions: conditionsOf(levels), head: source.at(head) };
}

/** Yields the blocks of these rules, which are in order, and of those in them. */
function* blocksIn(source, rules) {
  const open = [];
  let next = 0;
  for (const edge of withEnds([...edgesOf(source)], source.data.length)) {
    const outer = open.at(-1) ?? null;
    if (edge.kind === ENDS) open.pop();
    else if (outer) open.push(openIn(outer, edge));
    else if (edge.kind === BEGINS_STYLE) {
      while (rules[next]?.span[1] < edge.offset) next += 1;
      const rule = rules[next], isOne = rule?.span[0] <= edge.offset;
      open.push({ block: isOne ? blockOf(source, rule) : null, head: edge.prelude, depth: 0 });
    } else open.push(null);
    if (edge.kind !== ENDS && open.at(-1)?.block) yield open.at(-1).block;
  }
}

/**
 * Returns the blocks of the style rules of a sheet that have rules in them, and of these rules, each after the one that it is in:
 * where they and their rules are, what is before the blocks of the style rules around them, the group rules, and what is before the block of
 * the style rule that they are in.
 */
export function blocksOf({ source, statements }) {
  const rules = statements.filter(each => each.kind === 'rule' && each.items.some(isRule));
  return rules.length ? [...blocksIn(source, rules)] : [];
}

/** Returns the blocks of all style rules of a sheet, of which some have rules in them. */
export function everyBlock({ source, statements, blocks }) {
  const known = new Set(blocks.map(each => each.span[0]));
  const others = statements.filter(each => each.kind === 'rule').map(each => blockOf(source, each)).filter(each => !known.has(each.span[0]));
  return [...blocks, ...others].sort((a, b) => a.span[0] - b.span[0]);
}

/** Returns the declarations of each block that has some, by the offset after its brace. */
function declaredIn(source) {
  const numbers = sheetNumbers(source.data, CONTENTS, { room: 1024 + 2 * source.data.length });
  const begun = [], found = new Map();
  for (let at = 0; at < numbers.length; at += OF_CONTENT) {
    const row = numbers.slice(at, at + OF_CONTENT), [kind] = row;
    if (kind === ENDS) begun.pop();
    else if (EDGES.has(kind)) begun.push(edgeOf(source, row).offset);
    else if (kind === DECLARES) {
      const start = begun.at(-1);
      if (!found.has(start)) found.set(start, []);
      found.get(start).push(declarationAt(source, row));
    }
  }
  return found;
}

/**
 * Returns the selectors of a list that are not known to be supported, each with whether it is an unsupported one, and whether all
 * are known to be selectors. One may begin with a combinator, and what is before that does not matter.
 */
function listOf(head) {
  const read = partsOfList(head).map(text => ({ text, isOne: text === '' ? null : isSupported(`& ${text}`) }));
  return { others: read.filter(each => each.isOne !== true), isKnown: read.every(each => each.isOne !== null) };
}

/**
 * Yields the unsupported selectors of the style rules of these blocks that have declarations, each with its block and these.
 * `placed` has the supported ones of a block, by the offset after its brace.
 */
export function* unsupportedIn(source, blocks, placed) {
  const lists = new Map(), read = head => lists.get(head) ?? lists.set(head, listOf(head)).get(head);
  let declared = null;
  for (const block of blocks) {
    const [start] = block.span, supported = placed.get(start) ?? new Set();
    if (supported.size && !block.head.includes(',')) continue;
    declared ??= declaredIn(source);
    const declarations = declared.get(start);
    if (!declarations || !supported.size && ![...block.parents, block.head].every(head => read(head).isKnown)) continue;
    for (const { text, isOne } of read(block.head).others) {
      if (isOne === false || !supported.has(text)) yield { block, selector: text, declarations };
    }
  }
}

/** The innermost of blocks at offsets that do not fall. */
export class Places {
  #blocks;
  #next = 0;
  #open = [];

  constructor(blocks) {
    this.#blocks = blocks;
  }

  /** Returns the innermost block at an offset, if there is one. */
  at(offset) {
    for (; this.#blocks[this.#next]?.span[0] <= offset; this.#next += 1) {
      const block = this.#blocks[this.#next];
      this.#leave(block.span[0]);
      this.#open.push(block);
    }
    this.#leave(offset);
    return this.#open.at(-1);
  }

  #leave(offset) {
    while (this.#open.at(-1)?.span[1] <= offset) this.#open.pop();
  }
}
