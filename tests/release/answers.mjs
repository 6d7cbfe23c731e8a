// What the npm package answers, for tests/release.py: of the elements and texts of standard input, in JSON.
import { readFileSync } from 'node:fs';

const [folder] = process.argv.slice(2);
const css = await import(`${folder}/index.mjs`);
const { items, texts } = JSON.parse(readFileSync(0, 'utf8'));
const tree = new css.Tree(items);

// A device with none of the usual choices.
const device = {
  hover: false, pointer: 'none', deviceWidth: 400, deviceHeight: 9, color: 9, colorIndex: 2, monochrome: 3,
  colorGamut: 'p3', highDynamicRange: true, grid: true, update: 'slow', scripting: 'initial-only',
  displayMode: 'standalone', reducedTransparency: true, contrast: 'more', forcedColors: true, anyHover: true,
  anyPointer: 'coarse fine',
};

const declared = each => each && [each.name, each.value, each.important];
const within = each => [each.name, each.prelude];

/** What a call returns, or the error that it throws. */
function tried(call) {
  try {
    return call();
  } catch (error) {
    if (!(error instanceof css.SelectorError)) throw error;
    return [error.row, error.column, error.reason];
  }
}

function sheetOf(text, grammar) {
  const sheet = new css.StyleSheet([text, `${text}é`], { grammar });
  const characters = ({ source, start, end }) => [start, end].map(at => [...(source ? `${text}é` : text).slice(0, at)].length);
  const place = each => {
    const found = css.placeOf(each);
    return found && [found.source, found.row, found.column, ...characters(found)];
  };
  const rules = [...sheet.rules, ...sheet.unsupported];
  return [
    [...rules.map(each => [place(each), ...each.declarations.map(place)]), ...sheet.atRules.map(place)],
    sheet.rules.map(each => [
      each.selector, each.specificity, each.declarations.map(declared), each.conditions.map(within), each.pseudoElement,
      each.parents]),
    sheet.unsupported.map(each => [
      each.selector, each.declarations.map(declared), each.conditions.map(within), each.parents]),
    sheet.atRules.map(each => [each.name, each.prelude, each.block, each.conditions.map(within)]),
    sheet.skipped.map(each => [each.row, each.column, each.reason, each.text, each.source, ...characters(each)]),
    [...sheet.match(tree).values()],
    [...sheet.match(tree, { media: { width: 375, type: 'print', dark: true } }).values()],
    [...sheet.match(tree, { media: device }).values()],
    [...sheet.styles(tree, { media: query => query.length % 2 === 0, anyValue: true }).values()].map(each => each.map(declared)),
    [...sheet.style(tree, 'color').values()].map(declared),
  ];
}

function answersTo(text, grammar) {
  const found = css.lint(text, { grammar });
  return [
    found.map(each => [
      each.row, each.column, each.reason, each.text, each.endRow, each.endColumn, each.hint, each.kind, each.message]),
    css.declarations(text).map(declared), css.minify(text), css.prettify(text),
    ...sheetOf(text, grammar),
    tried(() => tree.select(text, { grammar }).map(each => each.index)),
    tried(() => {
      const selector = new css.Selector(text, { grammar });
      return [String(selector), selector.specificity, selector.pseudoElement, tree.elements.map(each => selector.matches(each))];
    }),
    tried(() => tree.elements.map(each => css.closest(each, text, { grammar })?.index ?? null)),
  ];
}

process.stdout.write(JSON.stringify(texts.map(text => ['modern', 'simplecss'].map(grammar => answersTo(text, grammar)))));
