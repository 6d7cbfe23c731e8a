// What the npm package answers of nodes beside what a browser does, for tests/release.py: the lines that differ, and how many
// answers were compared.

/** A chain of elements, as deep as said. */
function chain(page, depth) {
  const root = page.createElement('div');
  let last = root;
  for (let level = 1; level < depth; level += 1) last = last.appendChild(page.createElement(level % 2 ? 'p' : 'div'));
  return root;
}

// The namespaces of elements, and one that no element is in.
const SPACES = [
  'http://www.w3.org/1999/xhtml', 'http://www.w3.org/2000/svg', 'http://www.w3.org/1998/Math/MathML', '', 'urn:x'];

/** The value of a property on an element by the browser, where no other sheet has a say. */
const computed = (element, name) => getComputedStyle(element).getPropertyValue(name);

export function compared(css, { pages, selectors, sheets, depth }) {
  const lines = [];
  let count = 0;
  const same = (what, found, due) => {
    count += 1;
    if (found.length !== due.length || found.some((each, index) => each !== due[index])) {
      lines.push(`${what}: ${found.map(each => each?.outerHTML ?? each)}, not ${due.map(each => each?.outerHTML ?? each)}`);
    }
  };
  for (const [kind, text] of pages) {
    const page = new DOMParser().parseFromString(text, kind);
    const elements = [...page.querySelectorAll('*')];
    for (const space of SPACES) {
      const within = elements.filter(each => (each.namespaceURI ?? '') === space);
      same(`${text}: in ${space}`, css.select(page, 'x|*', { namespaces: { x: space } }), within);
      same(`${text}: by default in ${space}`, css.select(page, '*', { namespaces: { '': space } }), within);
    }
    for (const selector of selectors) {
      const what = `${text}: ${selector}`;
      same(what, css.select(page, selector), [...page.querySelectorAll(selector)]);
      for (const each of elements) {
        same(`${what} within`, css.select(each, selector), [...each.querySelectorAll(selector)]);
        same(`${what} matches`, [css.matches(each, selector)], [each.matches(selector)]);
        same(`${what} closest`, [css.closest(each, selector)], [each.closest(selector)]);
      }
    }
  }
  for (const [sheet, text] of sheets) {
    const frame = document.body.appendChild(document.createElement('iframe'));
    const page = frame.contentDocument;
    page.documentElement.innerHTML = text;
    const added = page.head.appendChild(page.createElement('style'));
    added.textContent = sheet;
    for (const [element, winner] of new css.StyleSheet(sheet).style(page, 'z-index')) {
      same(`${sheet} on ${element.outerHTML}`, [winner?.value ?? 'auto'], [computed(element, 'z-index')]);
    }
    frame.remove();
  }
  const root = chain(document.implementation.createHTMLDocument(), depth);
  same('a deep tree', [css.select(root, 'div p:empty, p:empty').length], [root.querySelectorAll('div p:empty, p:empty').length]);
  root.id = 'top';
  same('from its end', [css.closest(root.querySelector(':empty'), '#top')], [root]);
  return [lines, count];
}
