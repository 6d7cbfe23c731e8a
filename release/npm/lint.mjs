// Mistakes in style sheets.
import { expectOptions } from './library.mjs';
import { Source } from './reading.mjs';
import { skippedByPort, wordsOf } from './sheet.mjs';
import { linesOf } from './taken.mjs';
import { tokens } from './tokens.mjs';
import { PORT, grammarOf } from './tree.mjs';

// What a comment has that turns kinds off for its line: those whose names, or the beginnings of whose names, are after it, or
// every one.
const IGNORE = 'simplecss-ignore';
// How many characters of a text a message has.
const SHOWN = 60;
// What the library is asked for: the mistakes of a text, and what the kinds are.
const MISTAKES = 0n, KINDS = 4n;
// How often a sheet is corrected: what is right then may show another mistake.
const MOST_ROUNDS = 8;

// The control characters; what changes the order of the characters around it, ends a line, or cannot be seen; and halves of
// characters.
const HIDDEN = new RegExp('[\\0-\\x1f\\x7f-\\x9f\\xad\\u061c\\u180e\\u200b-\\u200f\\u2028-\\u202e\\u2060-\\u206f\\ufeff'
  + '\\ufff9-\\ufffb\\ud800-\\udfff\\u{e0000}-\\u{e007f}]', 'gu');

/** Returns a text for one line, with U+FFFD for each character that a line for people does not have. */
export function printable(text) {
  return text.replace(HIDDEN, '\ufffd');
}

let kinds;

/** Returns what the kinds are, by their reasons: what each means, how bad it is, a sheet with it alone and one without it. */
export function kindsExplained() {
  kinds ??= new Map(linesOf(new Uint8Array(), KINDS).map(([reason, ...fields]) => [reason, fields]));
  return kinds;
}

/** Returns the reason as one word. */
export function kindOf(reason) {
  return reason.replaceAll("'", '').replaceAll(' ', '-');
}

/** Returns a text, and why something of it is reported, where, and what corrects it. */
function reported(text) {
  const source = new Source(text);
  const problems = linesOf(source.data, MISTAKES).map(([reason, start, end, hint, from, to, right]) => {
    const fix = from === undefined ? null : { start: source.index(Number(from)), end: source.index(Number(to)), text: right };
    return { reason, span: [Number(start), Number(end)], hint: hint || null, fix };
  });
  return { source, problems };
}

function reportedByPort(text) {
  const { source, faults } = skippedByPort(text);
  return { source, problems: faults.map(({ reason, span }) => ({ reason, span, hint: null, fix: null })) };
}

/** Returns the beginnings of the kinds that comments turn off, by the rows of the comments in a sheet. */
function ignoredIn(text) {
  const rows = new Map();
  let row = 1;
  for (const token of text.includes(IGNORE) ? tokens(text) : []) {
    const lines = token.text.split('\n');
    if (token.kind === 'comment') lines.forEach((line, index) => ignore(rows, row + index, line));
    row += lines.length - 1;
  }
  return rows;
}

/** Adds what a line of a comment turns off. */
function ignore(rows, row, line) {
  for (const part of line.split(IGNORE).slice(1)) {
    const words = wordsOf((part.endsWith('*/') ? part.slice(0, -2) : part).replaceAll(',', ' '));
    const kinds = rows.get(row) ?? new Set();
    rows.set(row, kinds);
    for (const word of words.length > 0 ? words : ['']) kinds.add(word);
  }
}

/** Whether one of these is a kind, or its beginning. */
function isNamed(kind, words) {
  for (let length = 0; length <= kind.length; length += 1) {
    if (words.has(kind.slice(0, length))) return true;
  }
  return false;
}

/** Returns a finding of a problem. */
function findingOf(source, { reason, span, hint, fix }) {
  const end = source.position(span[1]), text = source.at(span), letters = [...printable(wordsOf(text).join(' '))];
  const shown = letters.length <= SHOWN ? letters.join('') : `${letters.slice(0, SHOWN).join('')}..`;
  return {
    ...source.position(span[0]), reason, text, endRow: end.row, endColumn: end.column, hint,
    kind: kindOf(reason), severity: kindsExplained().get(reason)?.[1] ?? 'warning', fix,
    message: `'${shown}': ${reason}${hint ? ` (did you mean '${hint}'?)` : ''}`, start: source.index(span[0]), end: source.index(span[1]),
  };
}

/** Returns the mistakes of a style sheet, in order, without those of the kinds that are left out. */
export function lint(text, options) {
  return foundIn(text, options).map(({ start, end, ...finding }) => finding);
}

/** Returns the same, each with the indices at which it begins and ends. */
export function foundIn(text, options) {
  expectOptions(options, ['grammar', 'ignore']);
  const { source, problems } = grammarOf(options) === PORT ? reportedByPort(text) : reported(text);
  const rows = ignoredIn(source.text), everywhere = new Set([options?.ignore ?? []].flat());
  return problems
    .map(each => findingOf(source, each))
    .filter(({ kind, row }) => !isNamed(kind, everywhere) && !isNamed(kind, rows.get(row) ?? everywhere))
    .sort((a, b) => a.row - b.row || a.column - b.column);
}

/** Returns a style sheet with what has one right answer corrected, and how many mistakes are. */
export function corrected(text) {
  let result = text, count = 0;
  for (let round = 0; round < MOST_ROUNDS; round += 1) {
    const fixes = lint(result).map(each => each.fix).filter(each => each !== null).sort((a, b) => a.start - b.start || a.end - b.end);
    const parts = [];
    let done = 0;
    for (const { start, end, text: right } of fixes) {
      if (start < done) continue;
      parts.push(result.slice(done, start), right);
      done = end;
      count += 1;
    }
    if (parts.length === 0) break;
    result = parts.join('') + result.slice(done);
  }
  return { text: result, count };
}

/** Returns a style sheet with what has one right answer corrected, as the `fix` of a finding says. */
export function fixed(text) {
  return corrected(text).text;
}
