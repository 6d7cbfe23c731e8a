// Style sheets that are written into the `style` attributes of a page, as mail is prepared.
import { call, encode, expectOptions, expectText, joinedBytes, limited } from './library.mjs';

// What is looked at and written at most, unless another limit is given.
const USUAL_LIMIT = 10_000_000;

/** Returns a page with style sheets in its `style` attributes: those that are given, and then its own. */
export function inline(html, options = {}) {
  expectText(html);
  expectOptions(options, ['css', 'keepStyle', 'limit']);
  const { css = [], keepStyle = false, limit = USUAL_LIMIT } = options;
  const sheets = typeof css === 'string' ? [css] : [...css];
  sheets.forEach(expectText);
  const data = encode(html), [texts, ends] = joinedBytes(sheets.map(encode));
  const found = call('inline', [data, texts, ends, BigInt(Boolean(keepStyle)), limited(limit)], { room: 1024 + 2 * data.length });
  if (found === null) throw new RangeError('the page cannot be written: browsers differ on it, or on what stays of a sheet');
  return found;
}
