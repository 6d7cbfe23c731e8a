// The comments of a style sheet, put back into its printed text.
import { CONTENTS, sheetNumbers } from './library.mjs';
import { Source, lower } from './reading.mjs';
import { tokens } from './tokens.mjs';

// What an item of a sheet or of a block is after.
const ENDS = new Set(['{', '}', ';']);
// A comment that says nothing, which the library writes between two words, and how much deeper what is in a block is indented than
// its end.
const EMPTY = '/**/', LEVEL = '  ';
// How many numbers the library writes of what a block has, and how it numbers the beginnings and the end of one.
const OF_CONTENT = 10, EDGES = new Set([3, 12, 13]);

/** Returns the text of a comment, which the end of the sheet may close. */
const closed = text => (text.length >= EMPTY.length && text.endsWith('*/') ? text : `${text}*/`);

/**
 * Returns the tokens of a text that are no gaps, and its comments: the text of each, the number of the token after it, and whether it
 * is on the line of the token before it and at the end of that.
 */
function wordsIn(text) {
  const words = { tokens: [], comments: [] };
  let gap = [];
  const endGap = isLast => {
    const first = gap.findIndex(each => each.kind === 'whitespace' && /[\n\r\f]/.test(each.text));
    const end = first >= 0 ? first : isLast ? gap.length : 0;
    gap.forEach((each, at) => {
      if (each.kind !== 'comment') return;
      words.comments.push({ text: closed(each.text), after: words.tokens.length, endsLine: at < end });
    });
    gap = [];
  };
  for (const each of tokens(text)) {
    if (each.kind === 'whitespace' || each.kind === 'comment') gap.push(each);
    else {
      endGap(false);
      words.tokens.push(each);
    }
  }
  endGap(true);
  return words;
}

/** Returns the index of the first number that is at least another one. */
function firstFrom(numbers, least) {
  let low = 0, high = numbers.length;
  while (low < high) {
    const middle = (low + high) >> 1;
    if (numbers[middle] < least) low = middle + 1;
    else high = middle;
  }
  return low;
}

/**
 * Returns of each token the number of the one that it is among others, which are some of these in order with semicolons between
 * them, or else that of the one after it.
 */
function placesIn(own, others) {
  const numbers = new Map(), found = new Array(own.length).fill(-1);
  own.forEach((each, number) => {
    const key = lower(each.text);
    if (numbers.has(key)) numbers.get(key).push(number);
    else numbers.set(key, [number]);
  });
  let at = 0;
  others.forEach((each, place) => {
    if (each.text === ';' && at < own.length && own[at].text !== ';') return;
    const those = numbers.get(lower(each.text)) ?? [], turn = firstFrom(those, at);
    if (turn === those.length) return;
    found[those[turn]] = place;
    at = those[turn] + 1;
  });
  found.push(others.length);
  for (let number = own.length - 1; number >= 0; number -= 1) if (found[number] < 0) found[number] = found[number + 1];
  return found;
}

/** Returns of each token, and of the end, the number of the one that is before its item, or -1. */
function endsIn(text, those) {
  const source = new Source(text), ends = [];
  const numbers = sheetNumbers(source.data, CONTENTS, { room: 1024 + 2 * source.data.length }), spans = [];
  for (let row = 0; row < numbers.length; row += OF_CONTENT) {
    const [kind, start, length] = numbers.slice(row, row + 3);
    if (!EDGES.has(kind)) spans.push([source.index(start), source.index(start + length)]);
  }
  let at = 0, last = -1;
  those.forEach((each, number) => {
    ends.push(last);
    while (at < spans.length && spans[at][1] <= each.start) at += 1;
    if (ENDS.has(each.text) && !(at < spans.length && spans[at][0] <= each.start)) last = number;
  });
  return [...ends, last];
}

/** Returns a line with a comment after a token of a printed text, or at its front. */
function lineOf(comment, text, those, number) {
  if (number < 0) return `${comment}\n`;
  const next = those[number + 1], blanks = text.slice(those[number].end, next?.start).replace(/\n+$/, '') || '\n';
  return `${blanks}${next?.text === '}' ? LEVEL : ''}${comment}`;
}

/**
 * Returns the printed text of a sheet with the comments of its text that begin so: each before the rule, the declaration or the end of
 * a block that it is before or in. If the printed text has lines, a comment at the end of a line stays there.
 */
export function withComments(text, printed, front, hasLines) {
  const own = wordsIn(text), made = wordsIn(printed), places = placesIn(own.tokens, made.tokens);
  const ends = endsIn(printed, made.tokens), present = new Set(made.comments.map(each => `${each.after} ${each.text}`));
  const parts = [];
  let done = 0;
  for (const { text: comment, after, endsLine } of own.comments) {
    const place = places[after], end = ends[place];
    if (comment === EMPTY || !comment.startsWith(front) || present.has(`${place} ${comment}`)) continue;
    const at = end < 0 ? 0 : made.tokens[end].end;
    const isBeside = endsLine && after > 0 && end >= 0 && places[after - 1] <= end && ['', '\n'].includes(printed.charAt(at));
    const line = isBeside ? ` ${comment}` : lineOf(comment, printed, made.tokens, end);
    parts.push(printed.slice(done, at), hasLines ? line : comment);
    done = at;
  }
  return [...parts, printed.slice(done)].join('');
}
