// Properties by their names: shorthands, what is inherited, and values with `var()`.
import { call, decode, encode, expectOptions, joined, limited, mostWritten } from './library.mjs';
import { lower } from './reading.mjs';

// How many bytes a value may have whose references are replaced.
const LONGEST = 2 ** 20;
// What is asked of a property, as the library numbers it.
const LONGHANDS = 0n, SHORTHANDS = 1n, INHERITED = 3n;

/** Returns the longhands that a shorthand sets. A longhand has none. */
export function longhands(name) {
  const found = call('property', [encode(lower(name)), LONGHANDS]);
  return found ? found.split(' ') : [];
}

/** Returns the shorthands that set a longhand. */
export function shorthands(name) {
  return call('property', [encode(lower(name)), SHORTHANDS]).split('\n').slice(0, -1);
}

// What each shorthand that was asked about sets.
const parts = new Map();

/** Returns the properties that a shorthand sets, and the shorthands of some of these. A name with one longhand has none: it is
 * another name of that one. */
export function partsOf(name) {
  if (parts.has(name)) return parts.get(name);
  const those = longhands(name);
  if (those.length < 2) return [];
  const others = new Set(those.flatMap(shorthands).filter(each => !each.startsWith('-')));
  const isWithin = each => longhands(each).length < those.length && longhands(each).every(part => those.includes(part));
  const found = [...those, ...[...others].filter(isWithin)];
  parts.set(name, found);
  return found;
}

/** Whether parents hand down a property. */
export function isInherited(name) {
  return call('property', [encode(name.startsWith('--') ? name : lower(name)), INHERITED]) === 'true';
}

/** Whether each `var()` of a value has the name of a custom property, and nothing else but a fallback. */
export function hasValidReferences(value) {
  return call('valid_value', [encode(value)]) === 'true';
}

/** The old name of `hasValidReferences`. */
export const isValidValue = hasValidReferences;

/** Returns the values of the lengths and bytes that the library writes. */
function valuesIn(bytes, count) {
  const values = [];
  let at = 0;
  for (let number = 0; number < count; number++) {
    const start = bytes.indexOf(10, at) + 1, length = decode(bytes.subarray(at, start - 1));
    at = start + Number(length);
    values.push(length ? decode(bytes.subarray(start, at)) : null);
  }
  return values;
}

/** Returns the computed value of each property, of pairs of a name and a value, where the parent has these others, and of the
 * `@property` rules that are registered there are what is before the block and what is in it. */
export function resolve(properties, inherited = [], options = {}) {
  expectOptions(options, ['registered', 'limit']);
  const { registered = [], limit = LONGEST } = options ?? {};
  const own = [...properties], rules = [...registered], [texts, ends] = joined([...own, ...rules, ...inherited].flat());
  const words = [texts, ends, BigInt(own.length), BigInt(rules.length), limited(limit)];
  return valuesIn(encode(call('values', words, { most: mostWritten(texts.length) })), own.length);
}
