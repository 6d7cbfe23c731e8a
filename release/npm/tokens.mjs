// The tokens of a text, and names and strings as they are written, as the library reads them.
import { call, decode, encode, sizes } from './library.mjs';
import { lower } from './reading.mjs';

// The kinds of tokens, as the library numbers them.
const KINDS = ['whitespace', 'comment', 'ident', 'function', 'at-keyword', 'hash', 'id', 'string', 'bad-string', 'url', 'bad-url',
  'number', 'percentage', 'dimension', 'cdo', 'cdc', 'delim'];
const MEASURED = new Set(['percentage', 'dimension']), STRINGS = new Set(['string', 'bad-string']);
const NAMED = new Set(['ident', 'function', 'at-keyword', 'hash', 'id', 'url', 'dimension']);
const COMBINATORS = new Set(['>', '+', '~']), OPENING = new Set(['(', '[', '{']), CLOSING = new Set([')', ']', '}']);
// What may be between two tokens.
const GAPS = new Set(['whitespace', 'comment']);
// The kinds of names that are of pseudo-classes and of pseudo-elements: each without parentheses and with them.
const PSEUDO_CLASSES = [4, 5], PSEUDO_ELEMENTS = [6, 7];
// How a text is written with escapes, as the library numbers it; without them, it is 0 for a name, and 1 in a string.
const IDENTIFIER = 2n, QUOTED = 3n;
// How many numbers the library writes of a token, and of a name.
const WIDTH = 5, NAME_WIDTH = 6;

/** Yields the tokens of a text, whatever it is. Their texts, one after another, are the text. */
export function* tokens(text) {
  const data = encode(text);
  const numbers = call('tokens', [data], { room: 64 + data.length, isNumbers: true });
  const at = (start, end) => decode(data.subarray(start, end));
  let index = 0;
  for (let first = 0; first < numbers.length; first += WIDTH) {
    const [kind, start, end, inside, insideEnd] = numbers.slice(first, first + WIDTH);
    const token = tokenOf(KINDS[kind], at(start, end), at(inside, insideEnd), index);
    index = token.end;
    yield token;
  }
}

/** Returns a token that begins at an index: `inside` is its text without what it is marked by. */
function tokenOf(kind, text, inside, start) {
  const isString = STRINGS.has(kind), isMeasured = MEASURED.has(kind);
  const value = text.includes('\\') && (isString || NAMED.has(kind)) ? decoded(inside, isString) : inside;
  return {
    kind, text, start, end: start + text.length, value,
    number: isMeasured ? text.slice(0, text.length - inside.length) : text,
    unit: isMeasured ? value : '',
  };
}

/**
 * Returns the bytes at which the first token of these kinds begins and ends that has no end of its own, or null: a bad one, or
 * one that the end of the text closes.
 */
export function openedIn(text, kinds) {
  const data = encode(text), numbers = call('tokens', [data], { room: 64 + data.length, isNumbers: true });
  for (let first = 0; first < numbers.length; first += WIDTH) {
    const [kind, start, end, , insideEnd] = numbers.slice(first, first + WIDTH);
    if (kinds.has(KINDS[kind]) && isOpen(KINDS[kind], decode(data.subarray(start, end)), insideEnd === end)) return [start, end];
  }
  return null;
}

/** Whether a token has no end of its own; in a string, whether what is in it ends where it does. */
function isOpen(kind, text, endsWithin) {
  if (kind === 'comment') return text.length < 4 || !text.endsWith('*/');
  return kind === 'string' ? endsWithin : kind !== 'url' || !text.endsWith(')');
}

/** Returns what a name denotes, or what is between the quotes of a string. */
export function decoded(text, isString) {
  return call('spell', [encode(text), BigInt(isString)]);
}

/** Yields the names in a selector, in order: the kind of each, the bytes at which its sign, it and what follows it begin, and its depths. */
export function* namesIn(data) {
  const numbers = call('names', [data, sizes([data.length])], { room: 64 + 2 * data.length, isNumbers: true });
  for (let first = 0; first < numbers.length; first += NAME_WIDTH) yield numbers.slice(first, first + NAME_WIDTH);
}

/**
 * Returns the names of pseudo-classes and pseudo-elements in a selector, in order: each without escapes and in lower case, the
 * bytes at which its colons begin and it ends, and whether `:not()` is around it.
 */
export function pseudoNames(text) {
  if (!text.includes(':')) return [];
  const data = encode(text), found = [];
  for (const [kind, start, inside, end, , negated] of namesIn(data)) {
    const isElement = PSEUDO_ELEMENTS.includes(kind);
    if (!isElement && !PSEUDO_CLASSES.includes(kind)) continue;
    const written = decode(data.subarray(inside, end));
    found.push({ name: lower(written.includes('\\') ? decoded(written, false) : written), isElement, start, end, isNegated: negated > 0 });
  }
  return found;
}

/** Returns the texts of the selectors of a list, without the blanks around each. */
export function partsOfList(head) {
  return partTokens(head).map(part => part.map(token => token.text).join(''));
}

/** Returns the tokens of each selector of a list, without the blanks around it. */
export function partTokens(head) {
  const parts = [[]];
  let depth = 0;
  for (const token of tokens(head)) {
    if (token.kind === 'function' || OPENING.has(token.text)) depth += 1;
    else if (CLOSING.has(token.text)) depth -= 1;
    if (token.text === ',' && depth === 0) parts.push([]);
    else if (parts.at(-1).length || !GAPS.has(token.kind)) parts.at(-1).push(token);
  }
  for (const part of parts) while (part.length && GAPS.has(part.at(-1).kind)) part.pop();
  return parts;
}

/**
 * Returns the selector of the elements that a pseudo-element is of, by what is written before it: of any, `*`, where no
 * compound selector is.
 */
export function originating(front) {
  const last = [...tokens(front)].filter(token => token.kind !== 'comment').pop();
  const isAny = !last || last.kind === 'whitespace' || COMBINATORS.has(last.text);
  return isAny ? `${front}*` : front;
}

/** Returns an identifier that denotes the name, as `CSS.escape` does. */
export function escape(name) {
  return call('spell', [encode(name), IDENTIFIER]);
}

/** Returns a string in double quotes that denotes the text. */
export function quote(text) {
  return call('spell', [encode(text), QUOTED]);
}
