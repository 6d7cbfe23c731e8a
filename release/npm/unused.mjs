// The selectors that match no element of any of some pages.
import { isSupported, Source } from './reading.mjs';
import { pseudoNames } from './tokens.mjs';

// The pseudo-classes that depend only on the tree, or on what is a link: they are asked as they are.
const ASKED = new Set(('root empty first-child last-child only-child first-of-type last-of-type only-of-type nth-child nth-last-child'
  + ' nth-of-type nth-last-of-type lang not is where has link any-link').split(' '));
// A state that each element is in, one that none is in, and how many states a selector has at most that is asked for.
const MET = ':hover', UNMET = ':active', MOST_STATES = 8;

/** Returns what is asked in place of a state: one that is met, or within `:not()` one that is not. Deeper in it that is not known. */
function stateOf(names, { name, isNegated, start }) {
  if (!isNegated) return name === 'visited' ? ':link' : MET;
  const around = names.filter(each => each.end + 1 === start).map(each => each.name);
  return around.join() === 'not' ? UNMET : null;
}

/** Returns a selector with states that are met in place of its own, or null if that is not known. */
function asked(selector) {
  const every = pseudoNames(selector), names = every.filter(each => !ASKED.has(each.name));
  const states = names.map(each => stateOf(every, each));
  if (names.length > MOST_STATES || states.includes(null)) return null;
  const source = new Source(selector), ends = [0, ...names.map(each => each.end)];
  const parts = names.map(({ start }, index) => source.at([ends[index], start]) + states[index]);
  const text = [...parts, source.at([ends.at(-1), source.data.length])].join('');
  return names.length === 0 || isSupported(text) ? text : null;
}

/** Returns which of some selectors match an element, each of which is in the state that is met. */
function matchedOn(elements, selectors, limit) {
  const isLink = states => states.includes('link') || states.includes('visited');
  const met = elements.inStates(states => isLink(states) ? ['hover', 'link'] : ['hover']), lines = new Set(met.matched(selectors, limit));
  return new Set([...lines].flatMap(line => line.split(' ').filter(Boolean)).map(number => selectors[number - 1]));
}

/** Returns the selectors of sheets that are read which match nothing on these pages. More answers than `limit` are an error. */
export function unusedOf(sheets, pages, limit) {
  const known = new Map(), left = new Set();
  const rules = sheets.flatMap(({ source, statements }, number) => (
    statements.filter(each => each.kind === 'rule').map(rule => ({ source, number, rule }))));
  for (const { rule } of rules) {
    for (const { front, specificity } of rule.selectors) {
      if (specificity === null || known.has(front)) continue;
      known.set(front, asked(front));
      if (known.get(front) !== null) left.add(known.get(front));
    }
  }
  for (const elements of pages) {
    for (const each of matchedOn(elements, [...left], limit)) left.delete(each);
  }
  const isUnused = ({ front, specificity }) => specificity !== null && left.has(known.get(front));
  return rules.flatMap(({ source, number, rule: { selectors } }) => {
    const found = selectors.filter(isUnused), isWhole = found.length === selectors.length;
    return found.map(({ text, span: [start, end] }) => (
      { selector: text, ...source.position(start), isWhole, source: number, start: source.index(start), end: source.index(end) }));
  });
}
