// Which values of properties browsers take, as far as the library knows.
import { call, decode, encode, expectText } from './library.mjs';

// What the library is asked for: whether properties take values; and that a text is a sheet or a `style` attribute, and a page in quirks
// mode.
const VALUES = 8n, SHEET = 0n, STYLE = 1n, QUIRKS = 2n;

/** Returns the fields of the lines that the library writes of a text. */
export function linesOf(data, asked) {
  const written = call('lint', [data, asked], { room: 1024 + data.length });
  return written.split('\n').slice(0, -1).map(line => line.split('\t'));
}

/**
 * Returns whether a property takes a value, which has no `!important`: true if the standards and browsers take it, and false if none
 * of them does. What is not known is null.
 */
export function takesValue(name, value) {
  expectText(name);
  expectText(value);
  if (name.includes(':') || `${name}${value}`.includes('\n')) return null;
  const [[found]] = linesOf(encode(`${name}:${value}`), VALUES);
  return found === 'unknown' ? null : found === 'valid';
}

/** Any value may win. */
export const ANY_VALUE = null;

/** Returns which values may win: any, or those that browsers take, of which they take more on pages in quirks mode. */
export function valuesOn({ reading }, anyValue) {
  return anyValue ? ANY_VALUE : reading === QUIRKS ? QUIRKS : SHEET;
}

/**
 * Returns a style sheet as browsers read it: with as many spaces in place of each declaration whose value no browser takes, as far as
 * that is known.
 */
export function taken(text) {
  return decode(takenBytes(encode(text), SHEET));
}

/** Returns a `style` attribute without declarations with other values. Of an element that is not in HTML it is read as in quirks mode. */
export function takenStyle(text, values, isForeign) {
  if (!text || values === ANY_VALUE) return text;
  return call('taken', [encode(text), STYLE | (isForeign ? QUIRKS : values)], { room: 256 + text.length });
}

/** Returns the bytes of a style sheet without declarations with other values. */
export function takenBytes(data, values) {
  return values === ANY_VALUE ? data : call('taken', [data, values], { room: 16 + data.length, isBytes: true });
}
