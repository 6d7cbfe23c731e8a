// What the types of the npm package allow, for tests/release.py: it is compiled, and not run.
import css, { type Declaration, Element, Selector, SelectorError, StyleSheet, Tree, closest, encodingOf, lint, matches, select, styles } from 'simplecss';
import { load } from 'simplecss/load';

const tree = new Tree([{ name: 'ul', states: ['hover'] }, { name: 'li', attributes: { class: 'a' }, parent: 0 }]);
const found: Element[] = select(tree, 'ul > .a', { grammar: 'modern' });
const own: Element | null = closest(found[0]!, 'ul');
const drawn: Element | null = tree.selectOne('svg|a', { namespaces: { svg: 'http://www.w3.org/2000/svg' } });
const isDrawn: boolean = matches(found[0]!, 'a', { namespaces: new Map([['', 'http://www.w3.org/2000/svg']]) });
const sheet = new StyleSheet(['a { color: red }', 'b { color: blue }'], { limit: Infinity });
const winners: Map<Element, Declaration[]> = sheet.styles(tree);
for (const [element, declarations] of sheet.styles(tree, { media: query => query === 'print' })) {
  const name: string = element.name, value: string | undefined = declarations[0]?.value;
  console.log(name, value, own, winners, drawn, isDrawn);
}
const shown: string | null = sheet.explain(tree, 'color', { names: ['all'], media: 'print' }).get(tree.elements[0]!)?.winner?.layer ?? null;
sheet.match(tree, { media: { width: 375, resolution: 2, pointer: 'coarse', anyPointer: 'coarse fine', deviceWidth: 400 } });
// A DOM, and what parse5 reads.
const links: HTMLAnchorElement[] = select<HTMLAnchorElement>(document, 'a:link');
const isLink: boolean = matches(links[0]!, new Selector('a')) && new Selector('a').matches(links[0]!);
const byRead: Element[] = [...select(tree, new Selector('a')), ...tree.select(new Selector('a'))];
const node = { nodeName: '#document', childNodes: [] };
const map = styles(node, 'a { b: c }');
const parsed = { type: 'root', children: [{ type: 'tag', name: 'a', attribs: { href: 'x' }, children: [] }] };
console.log(Tree.fromDomhandler(parsed).length, select(parsed, 'a').length, `${sheet}`, JSON.stringify(sheet));
const { name: encoding, source } = encodingOf(new Uint8Array(), 'utf-8');
console.log(Tree.fromHTML(new Uint8Array(), { encoding }).length, source);
tree.close();
tree[Symbol.dispose]();
const [finding] = lint('a {');
const texts: Element[] = select('<p>', 'p'), onText: Map<Element, Declaration[]> = styles('<p>', 'p { a: b }');
const unused: readonly string[] = sheet.unused(tree, document, '<p>').map(each => each.selector), isTaken: boolean | null = css.takesValue('color', 'red');
console.log(texts, onText, unused, isTaken, byRead);
const place: [number, number] = [finding!.row, finding!.column];
await load(fetch('simplecss.wasm'));
try {
  css.select(document.body, 'a:');
} catch (error) {
  if (error instanceof SelectorError) console.log(error.row, error.column, error.reason, isLink, map, place);
}
// @ts-expect-error: there is no such grammar
select(tree, 'a', { grammar: 'today' });
// @ts-expect-error: there is no such option
sheet.match(tree, { meda: 'print' });
// @ts-expect-error: there is no such type
sheet.match(tree, { media: { type: 'tv' } });
// @ts-expect-error: an element has a name
new Tree([{ attributes: {} }]);
// @ts-expect-error: a number is no text
lint(3);
// @ts-expect-error: a rule cannot be changed
sheet.rules[0]!.selector = 'b';
// @ts-expect-error: a state is a text
new Tree([{ name: 'a', states: [5] }]);
// @ts-expect-error: a namespace is a text
select(tree, 'svg|a', { namespaces: { svg: null } });
// @ts-expect-error: a selector is read without namespaces
new Selector('a', { namespaces: {} });
