// Style sheets with other selectors: below a scope, or with a text before their classes.
import { edit } from './edit.mjs';
import { decode, encode } from './library.mjs';
import { ENDS, edgesOf } from './nested.mjs';
import { Source } from './reading.mjs';
import { decoded, escape, namesIn, partTokens } from './tokens.mjs';

// The number of a class among the kinds of names.
const CLASS = 1;

/**
 * Returns a style sheet with a text before each class in its selectors, and then with a selector and a blank before each selector, but
 * for those of rules in style rules. The rest stays as it is.
 */
export function scoped(text, { prefix = '', scope }) {
  const source = new Source(text), edits = [], depths = [0];
  for (const { kind, start, prelude } of edgesOf(source)) {
    if (kind === ENDS) {
      depths.pop();
      continue;
    }
    const depth = depths.at(-1), front = scope === undefined || depth > 0 ? '' : `${scope} `;
    // A group rule has no selectors.
    if (prelude === undefined) depths.push(depth);
    else {
      depths.push(depth + 1);
      const changed = listOf(prelude, selector => front + (prefix ? prefixed(selector, prefix) : selector));
      const first = source.index(start);
      if (changed !== prelude) edits.push({ start: first, end: first + prelude.length, part: 'prelude', text: changed });
    }
  }
  return edits.length > 0 ? edit(source.text, edits) : source.text;
}

/** Returns a list with each selector changed. */
function listOf(head, change) {
  const parts = [];
  let last = 0;
  for (const tokens of partTokens(head).filter(part => part.length > 0)) {
    const { start } = tokens[0], { end } = tokens.at(-1);
    parts.push(head.slice(last, start), change(head.slice(start, end)));
    last = end;
  }
  return parts.join('') + head.slice(last);
}

/** Returns a selector with a text before the name of each class. */
function prefixed(selector, front) {
  const data = encode(selector), parts = [];
  let last = 0;
  for (const [kind, , start, end] of namesIn(data)) {
    if (kind !== CLASS) continue;
    parts.push(decode(data.subarray(last, start)), escape(front + decoded(decode(data.subarray(start, end)), false)));
    last = end;
  }
  return parts.join('') + decode(data.subarray(last));
}
