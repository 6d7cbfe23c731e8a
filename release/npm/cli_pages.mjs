// The commands for pages.
import { StyleSheet, Tree, inline as inlined, isInherited, placeOf, shorthands } from './index.mjs';
import {
  Failure, REFUSED, UNREADABLE, USAGE_ERROR, caught, isPage, isXML, outputsOf, print, readMarked, readPage, readSheet, writeText,
} from './cli_files.mjs';
import { LimitError } from './library.mjs';
import { printable } from './lint.mjs';
import { wordsOf } from './sheet.mjs';

/** Returns the device that options name. */
function deviceOf({ media, width, height, dark }) {
  return { ...media && { type: media }, ...width && { width: Number(width) }, ...height && { height: Number(height) }, ...dark && { dark } };
}

/** Returns the sheet of files, and the pages that are named. The last operand is a page in any case. */
function parted(operands, options) {
  const isOne = (file, index) => index === operands.length - 1 || isPage(file) || isXML(file);
  const pages = operands.filter(isOne), sheets = operands.filter((file, index) => !isOne(file, index));
  if (sheets.length === 0) throw new Failure(USAGE_ERROR, 'a SHEET and a PAGE are expected');
  return { sheets, pages, sheet: new StyleSheet(sheets.map(readSheet), options) };
}

/** Returns where an element is, as far as it is known. */
function at(file, { row, column }) {
  return row === null ? printable(file) : `${printable(file)}:${row}:${column}`;
}

/** Returns an element as it is shown. */
function shown(element) {
  const named = ['id', 'class'].filter(each => element.attributes.has(each));
  const words = named.map(each => `${each}="${wordsOf(element.attributes.get(each)).join(' ')}"`);
  return `<${[element.name, ...words].join(' ')}>`;
}

/** Prints the elements of pages that selectors match. */
export function select({ operands: [selectors, ...files], ...options }) {
  new Tree().select(selectors, { grammar: options.grammar });
  let found = 0;
  const status = Math.max(...files.map(file => caught(() => {
    const elements = readPage(file).select(selectors, { grammar: options.grammar });
    found += elements.length;
    showFound(file, elements, { ...options, isOne: files.length === 1 });
    return 0;
  })));
  return status || (options.quiet && found === 0 ? REFUSED : 0);
}

/** Prints what is asked for of the elements of a page. */
function showFound(file, elements, { attr, count, quiet, json, isOne }) {
  if (count) print(isOne ? `${elements.length}` : `${printable(file)}:${elements.length}`);
  for (const element of quiet || count ? [] : elements) {
    const { index, name, row, column, attributes } = element;
    if (json) print(JSON.stringify({ file, element: index, name, row, column, attributes: Object.fromEntries(attributes) }));
    else if (attr === undefined) print(`${at(file, element)}: ${printable(shown(element))}`);
    else if (attributes.has(attr)) print(attributes.get(attr));
  }
}

/** Prints which rules match each element of pages. */
export function match({ operands, grammar, json, ...options }) {
  const { pages, sheet } = parted(operands, { grammar });
  return Math.max(...pages.map(file => caught(() => {
    for (const [element, rules] of sheet.match(readPage(file), { media: deviceOf(options) })) {
      const selectors = rules.map(rule => sheet.rules[rule].selector).join(', '), { index, name } = element;
      if (json) print(JSON.stringify({ element: index, name, rules }));
      else print(`${at(file, element)}: ${printable(`${shown(element)} ${wordsOf(selectors).join(' ')}`)}`);
    }
    return 0;
  })));
}

/** Prints which declaration of a property wins on each element of pages. */
export function style({ operands, grammar, json, ...options }) {
  const property = operands.at(-1), { pages, sheet } = parted(operands.slice(0, -1), { grammar });
  return Math.max(...pages.map(file => caught(() => {
    for (const [element, winner] of sheet.style(readPage(file), property, { media: deviceOf(options) })) {
      const { index, name } = element, text = winner && `${winner.name}: ${winner.value}${winner.important ? ' !important' : ''}`;
      if (json) print(JSON.stringify({ element: index, name, winner }));
      else if (winner) print(`${at(file, element)}: ${printable(`${shown(element)} ${text}`)}`);
    }
    return 0;
  })));
}

/** Prints the declarations of a property that apply to the elements that selectors match, and by what each loses. */
export function explain({ operands: [selectors, property, file], sheet: files = [], json, ...options }) {
  if (files.length === 0) throw new Failure(USAGE_ERROR, 'a --sheet is expected');
  const sheet = new StyleSheet(files.map(readSheet)), page = readPage(file), names = shorthands(property);
  const wanted = page.select(selectors), found = sheet.explain(page, property, { names, media: deviceOf(options) });
  const onElement = element => {
    const { contenders: every, winner } = found.get(element), contenders = every.map(each => ({ ...each, place: placed(each, files) }));
    return { element, contenders, won: every.indexOf(winner), above: inheritedFrom(element, property, found) };
  };
  for (const element of wanted) {
    if (json) print(JSON.stringify(described(onElement(element), property, onElement)));
    else linesOf(onElement(element), at(file, element), property, onElement).forEach(print);
  }
  return wanted.length > 0 ? 0 : REFUSED;
}

/** Returns the nearest ancestor from which an element has a property that nothing sets on it, or null. */
function inheritedFrom(element, property, found) {
  if (found.get(element).winner !== null || !isInherited(property)) return null;
  let above = element.parent;
  while (above && found.get(above).winner === null) above = above.parent;
  return above ?? null;
}

/** Returns where a declaration of a sheet is, or null. */
function placed({ declaration, selector }, files) {
  const place = selector === null ? null : placeOf(declaration);
  return place && { ...place, file: at(files[place.source], place) };
}

/** Returns what explains a property on an element as JSON has it. */
function described({ element, contenders, won, above }, property, onElement) {
  const inherited = above && described(onElement(above), property, onElement);
  return { element: element.index, name: property, contenders, winner: won < 0 ? null : won, inherited };
}

/** Returns the lines that explain a property on an element. */
function linesOf({ element, contenders, won, above }, head, property, onElement) {
  const rows = contenders.map((each, index) => cellsOf(each, index === won));
  const lines = [`${head}: ${printable(`${shown(element)} ${property}`)}`, ...aligned(rows)];
  if (above) return [...lines, `  inherited from ${printable(shown(above))}`, ...linesOf(onElement(above), head, property, onElement)];
  const note = contenders.length > 0 ? 'all are rolled back' : 'nothing sets it';
  return won < 0 ? [...lines, `  ${note}`] : lines;
}

/** Returns what is shown of a declaration that applies. */
function cellsOf({ declaration: { name, value, important }, selector, place, layer, specificity, criterion, isRolledBack }, isWinner) {
  const text = wordsOf(`${name}: ${value}${important ? ' !important' : ''}`).join(' '), isStyle = selector === null;
  const state = isWinner ? 'wins' : isRolledBack ? 'rolled back' : 'loses', origin = isStyle ? 'style attribute' : 'author';
  return [state, text, wordsOf(selector ?? '').join(' '), place?.file ?? '', origin, layer ?? '', specificity?.join() ?? '', criterion ?? ''];
}

/** Returns lines of cells in columns. Those that are empty in each line are left out. */
function aligned(rows) {
  const cells = rows.map(row => row.map(printable));
  const widths = rows[0]?.map((_, column) => Math.max(...cells.map(each => each[column].length)));
  const kept = row => row.map((cell, column) => cell.padEnd(widths[column])).filter((_, column) => widths[column] > 0);
  return cells.map(row => `  ${kept(row).join('  ').trimEnd()}`);
}

/** Prints the selectors of sheets that match nothing on the pages. */
export function unused({ operands, json }) {
  const { pages, sheets, sheet } = parted(operands), found = sheet.unused(...pages.map(readPage));
  for (const each of found) {
    const { selector, row, column, isWhole, source } = each, more = isWhole ? '' : ', and others of its rule do';
    const line = `${printable(sheets[source])}:${row}:${column}: '${printable(wordsOf(selector).join(' '))}' matches nothing${more}`;
    print(json ? JSON.stringify({ file: sheets[source], ...each }) : line);
  }
  return 0;
}

/** Writes sheets into the `style` attributes of pages. The first operand is a page in any case. */
export function inline({ operands: [first, ...others], output, 'keep-style': keepStyle = false }) {
  const isOne = file => isPage(file) || isXML(file), pages = [first, ...others.filter(isOne)];
  const css = others.filter(file => !isOne(file)).map(readSheet);
  if (pages.length > 1 && output === undefined) throw new Failure(USAGE_ERROR, 'several pages need -o FOLDER');
  const outputs = output === undefined ? [undefined] : outputsOf(output, pages);
  return Math.max(...pages.map((file, index) => caught(() => writeText(outputs[index], inlinedPage(file, { css, keepStyle })))));
}

/** Returns the text of a page with sheets in it. */
function inlinedPage(file, options) {
  if (isXML(file)) throw new Failure(UNREADABLE, `cannot read ${file}: it is not HTML`);
  const { text, mark } = readMarked(file);
  try {
    return mark + inlined(text, options);
  } catch (error) {
    if (!(error instanceof RangeError) || error instanceof LimitError) throw error;
    throw new Failure(REFUSED, `${file}: ${error.message}`);
  }
}
