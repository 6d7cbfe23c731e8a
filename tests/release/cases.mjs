// What the npm package answers to rows of tests/cases/calls.json, for tests/release.py: standard input has the pages, the devices and the
// rows, each a question and its fields, in JSON; standard output has the answers.
import { readFileSync } from 'node:fs';

const [folder] = process.argv.slice(2);
const css = await import(`${folder}/index.mjs`);
const { holds } = await import(`${folder}/device.mjs`);
const { pages, devices, prefixes, rows } = JSON.parse(readFileSync(0, 'utf8'));

/** The tree of a page in XML, of nodes as a DOM has them. */
function documentOf({ namespaces, elements }) {
  const root = { nodeType: 9, contentType: 'application/xml', childNodes: [] }, nodes = [root];
  const spaceOf = number => namespaces[number - 1] ?? null;
  for (const [depth, localName, attributes, , space, spaced] of elements) {
    nodes.length = depth + 1;
    const all = [...Object.entries(attributes).map(each => [0, ...each]), ...spaced];
    const named = ([number, name, value]) => ({ name: number ? `p:${name}` : name, localName: name, namespaceURI: spaceOf(number), value });
    const parentNode = nodes.at(-1), tagName = localName, namespaceURI = spaceOf(space);
    const node = { nodeType: 1, tagName, localName, namespaceURI, attributes: all.map(named), childNodes: [], parentNode };
    node.ownerDocument = root;
    parentNode.childNodes.push(node);
    nodes.push(node);
  }
  return css.Tree.fromDOM(root);
}

/** The tree of a page: of nodes of parse5 if it is HTML, else of items. */
function pageOf(name) {
  if (pages[name].xml !== undefined) return documentOf(pages[name]);
  const { html, elements } = pages[name], path = [], items = [];
  const root = { nodeName: '#document', mode: 'no-quirks', childNodes: [] };
  const nodes = [root];
  for (const [depth, element, attributes, hasText] of elements) {
    path.length = depth;
    nodes.length = depth + 1;
    items.push({ name: element, attributes, parent: path.at(-1), text: hasText ? 'x' : '' });
    const attrs = Object.entries(attributes).map(([name, value]) => ({ name, value }));
    const childNodes = hasText ? [{ nodeName: '#text', value: 'x' }] : [], parentNode = nodes.at(-1);
    const node = { nodeName: element, tagName: element, attrs, namespaceURI: 'http://www.w3.org/1999/xhtml', childNodes, parentNode };
    parentNode.childNodes.push(node);
    path.push(items.length - 1);
    nodes.push(node);
  }
  return html === undefined ? new css.Tree(items) : css.Tree.from(root);
}

const camel = name => name.replace(/_(\w)/g, (_, letter) => letter.toUpperCase());
const deviceOf = name => Object.fromEntries(Object.entries(devices[name]).map(([key, value]) => [camel(key), value]));
const shown = each => `${each.name}: ${each.value}${each.important ? ' !important' : ''}`;
const indices = found => found.map(each => each.index).join(' ');

function selector(text) {
  try {
    const found = new css.Selector(text);
    return `${found} ${found.specificity}`;
  } catch (error) {
    if (!(error instanceof css.SelectorError)) throw error;
    return `${error.row}:${error.column}: ${error.reason}`;
  }
}

function styles(page, device, sheet, options = {}) {
  const found = css.styles(pageOf(page), sheet, { media: deviceOf(device), ...options });
  return [...found.values()].map(each => each.map(shown).join('; ')).join('\n');
}

const cleaned = ({ text, dropped }) => `${text}|${dropped.map(each => each.reason).join(' ')}`;

const ANSWERS = {
  selector, styles,
  any_value: (page, device, sheet) => styles(page, device, sheet, { anyValue: true }),
  select: (page, selectors) => indices(pageOf(page).select(selectors)),
  namespaces: (page, declared, selectors) => indices(pageOf(page).select(selectors, { namespaces: prefixes[declared] })),
  any_case: (page, selectors) => indices(pageOf(page).select(selectors)),
  alike: (page, device, sheet, other) => styles(page, device, sheet) === styles(page, device, other) ? 'alike' : 'different',
  declarations: text => css.declarations(text).map(shown).join('; '),
  name: text => css.tokens(text).next().value.value,
  media: (prelude, device) => String(holds({ name: 'media', prelude }, deviceOf(device))),
  supports: prelude => String(holds({ name: 'supports', prelude }, {})),
  longhands: name => css.longhands(name).join(' '),
  shorthands: name => css.shorthands(name).join(' '),
  inherited: name => String(css.isInherited(name)),
  valid: value => String(css.hasValidReferences(value)),
  takes: (name, value) => String(css.takesValue(name, value) ?? 'not known'),
  resolve: (own, inherited, registered) =>
    JSON.stringify(css.resolve(JSON.parse(own), JSON.parse(inherited), { registered: JSON.parse(registered) })),
  clean: (scope, sheet) => cleaned(css.clean(sheet, { scope })),
  clean_style: (policy, text) => cleaned(css.cleanStyle(text, { policy })),
  is_clean: (scope, sheet) => String(css.isClean(sheet, { scope })),
  escape: css.escape, quote: css.quote, minify: css.minify, licences: css.minify, prettify: css.prettify, comments: css.prettify,
};

process.stdout.write(JSON.stringify(rows.map(([question, fields]) => ANSWERS[question](...fields))));
