// The selector at a place of a style sheet, and how specific it is.
import { ENDS, edgesOf } from './nested.mjs';
import { Source } from './reading.mjs';
import { StyleSheet } from './sheet.mjs';
import { partTokens } from './tokens.mjs';

/**
 * Returns the selector of a style rule that is at an index of a sheet, if the library supports it: where it begins and ends, its text,
 * and its specificity.
 */
export function selectorAt(css, index) {
  const source = new Source(css), heads = [];
  for (const { kind, start, prelude = null } of edgesOf(source)) {
    if (kind === ENDS) {
      heads.pop();
      continue;
    }
    const first = source.index(start);
    if (index < first) return null;
    heads.push(prelude);
    // Of a group rule nothing is a selector.
    if (prelude !== null && index <= first + prelude.length) return selectorIn(css, heads.filter(head => head !== null), first, index);
  }
  return null;
}

/** Returns the selector at an index of a list, the last one of what is before the blocks of rules in one another. */
function selectorIn(css, heads, first, index) {
  for (const part of partTokens(heads.at(-1))) {
    const start = first + (part[0]?.start ?? 0), text = part.map(token => token.text).join(''), end = start + text.length;
    if (index < start || index > end) continue;
    const specificity = specificityOf([...heads.slice(0, -1), text], namespacesOf(css));
    return specificity && { start, end, text, specificity };
  }
  return null;
}

/** Returns the declarations of namespaces of a sheet. */
function namespacesOf(css) {
  const found = new StyleSheet(css).atRules.filter(each => each.name === 'namespace');
  return found.map(each => `@namespace ${each.prelude};`).join('');
}

/** Returns the specificity of a selector, the last one of rules in one another, after these declarations of namespaces. */
function specificityOf(heads, front) {
  const { rules } = new StyleSheet(`${front}${heads.map(head => `${head}{`).join('')}top:0${'}'.repeat(heads.length)}`);
  const found = rules.find(each => each.declarations.length > 0 && each.parents.length === heads.length - 1);
  return found?.specificity ?? null;
}
