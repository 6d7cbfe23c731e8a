// What the library reads of style sheets and style attributes, by the modern grammar.
import { STATEMENTS, call, decode, encode, mostNumbers, rowsOf, sheetNumbers } from './library.mjs';

// How many bytes are counted at once.
const BLOCK = 256;
// How many numbers the library writes of a statement, and then of each of its group rules, its selectors and its items.
const OF_STATEMENT = 13, OF_LEVEL = 6, OF_SELECTOR = 9, OF_ITEM = 10;
// The kinds of statements and items, as the library numbers them, and why others are skipped.
const DECLARATION = 0, AT_RULE = 1, RULE = 3, FAULTS = 4;
const REASONS = ['broken declaration', 'bad string', 'bad url', 'stray bracket', 'too deep', 'no block', 'nested rule',
  'invalid selector'];

/** Returns a name with the letters A to Z in lower case. */
export function lower(name) {
  return name.replace(/[A-Z]+/g, letters => letters.toLowerCase());
}

/** A text, and what is at offsets of its bytes in UTF-8. */
export class Source {
  #counts;
  #lines;

  /** Takes a text, and its number among those of its sheet. */
  constructor(text, number = 0) {
    this.number = number;
    this.data = encode(text);
    this.isAscii = this.data.length === text.length;
    this.text = this.isAscii ? text : decode(this.data);
  }

  /** Returns the text between two offsets. */
  at([start, end]) {
    return this.isAscii ? this.text.slice(start, end) : decode(this.data.subarray(start, end));
  }

  /** Returns the index in the text of the character at an offset. */
  index(at) {
    return this.#counted(at)[1];
  }

  /** Returns the row and the column of an offset. They begin at 1, and columns count characters. */
  position(at) {
    const lines = this.#begins();
    const row = 1 + lastAtMost(lines, at, line => line);
    return { row, column: this.#counted(at)[0] - this.#counted(lines[row - 1])[0] + 1 };
  }

  /** Returns the offset of a row and a column. */
  offset(row, column) {
    const line = this.#begins()[row - 1];
    if (this.isAscii) return line + column - 1;
    const number = this.#counted(line)[0] + column - 1;
    const block = lastAtMost(this.#counts, number, ([characters]) => characters);
    let at = block * BLOCK;
    for (let seen = this.#counts[block][0]; at < this.data.length; at += 1) {
      if (begins(this.data[at]) && seen++ === number) break;
    }
    return at;
  }

  /** Returns how many characters are before an offset, and how many units of UTF-16. */
  #counted(at) {
    if (this.isAscii) return [at, at];
    if (!this.#counts) {
      this.#counts = [[0, 0]];
      for (let end = BLOCK; end <= this.data.length; end += BLOCK) {
        this.#counts.push(counted(this.data, end - BLOCK, end, this.#counts.at(-1)));
      }
    }
    const block = Math.floor(at / BLOCK);
    return counted(this.data, block * BLOCK, at, this.#counts[block]);
  }

  /** Returns the offsets that lines begin at. */
  #begins() {
    if (!this.#lines) {
      this.#lines = [0];
      for (let at = this.data.indexOf(10); at >= 0; at = this.data.indexOf(10, at + 1)) this.#lines.push(at + 1);
    }
    return this.#lines;
  }
}

/** Returns the index of the last item that has at most a number. The first one has. */
export function lastAtMost(items, number, numberOf) {
  let low = 0, high = items.length - 1;
  while (low < high) {
    const middle = Math.ceil((low + high) / 2);
    if (numberOf(items[middle]) <= number) low = middle;
    else high = middle - 1;
  }
  return low;
}

/** Whether a byte is the first of a character. */
const begins = byte => (byte & 0xc0) !== 0x80;

/** Adds how many characters and units of UTF-16 begin between two offsets. */
function counted(data, start, end, [characters, units]) {
  for (let at = start; at < end; at += 1) {
    if (!begins(data[at])) continue;
    characters += 1;
    units += data[at] < 0xf0 ? 1 : 2;
  }
  return [characters, units];
}

/** Returns the head of a group rule, as `@supports (a: b)`. */
export function headOf({ name, prelude }) {
  return prelude ? `@${name} ${prelude}` : `@${name}`;
}

/** Returns the group rule whose name, which may have escapes, and prelude are at these places. */
export function conditionAt(source, nameSpan, preludeSpan) {
  const name = source.at(nameSpan);
  return { name: lower(name.includes('\\') ? call('spell', [encode(name), 0n]) : name), prelude: source.at(preludeSpan) };
}

// The texts of rules, declarations and at-rules, and where they are in them.
const places = new WeakMap();

/** Notes where something is in a text, and returns it. */
export function placed(item, source, span) {
  places.set(item, { source, span });
  return item;
}

/** Returns where a rule, a declaration or an at-rule is in the texts of its sheet, or null where that is not known. */
export function placeOf(item) {
  const found = places.get(item);
  if (!found) return null;
  const { source, span } = found, [start, end] = span.map(at => source.index(at));
  return { source: source.number, ...source.position(span[0]), start, end };
}

/** Makes statements and items of what the library writes of a text. */
class Reader {
  #levels = new Map();

  constructor(text, number) {
    this.source = new Source(text, number);
  }

  /** Returns what the text has as a style attribute. */
  blockItems() {
    const { data } = this.source;
    return this.#items(call('declarations', [data], { room: 1024 + data.length, isNumbers: true }), []);
  }

  /** Returns the statements of the text, and the group rules that have none, which the library does not write. */
  statements() {
    const found = [];
    let at = 0;
    for (const statement of this.#written()) {
      const [start, end] = (statement.levels[0] ?? statement).span;
      this.#addGroups(found, at, start);
      found.push(statement);
      at = Math.max(at, end);
    }
    this.#addGroups(found, at, this.source.data.length);
    return found;
  }

  /** Adds the group rules between two statements. */
  #addGroups(found, start, end) {
    if (!this.source.data.subarray(start, end).includes(64)) return;
    for (const item of readBlock(this.source.at([start, end])).items) {
      if (item.kind !== 'at-rule') continue;
      const span = moved(item.span, start), rule = placed(item.rule, this.source, span);
      found.push({ ...item, rule, span, inner: moved(item.inner, start) });
    }
  }

  /** Yields the statements that the library writes. */
  * #written() {
    const { data } = this.source, options = { room: 1024 + data.length, most: mostNumbers(data.length) };
    const numbers = sheetNumbers(data, STATEMENTS, options);
    for (let at = 0; at < numbers.length;) {
      const row = numbers.slice(at, at + OF_STATEMENT);
      const atSelectors = at + OF_STATEMENT + row[10], atItems = atSelectors + row[11];
      const levels = this.#levelsOf(numbers.slice(at + OF_STATEMENT, atSelectors));
      at = atItems + row[12];
      if (row[0] === RULE) yield this.#rule(row, numbers.slice(atSelectors, atItems), numbers.slice(atItems, at), levels);
      else yield this.#other(row, levels);
    }
  }

  /** Makes the items of these numbers. */
  #items(numbers, levels) {
    return rowsOf(numbers, OF_ITEM).map(row => row[0] === DECLARATION ? this.#declaration(row) : this.#other(row, levels));
  }

  /** Makes the group rules of a statement, which most have in common. */
  #levelsOf(numbers) {
    const key = numbers.join(' ');
    if (!this.#levels.has(key)) this.#levels.set(key, rowsOf(numbers, OF_LEVEL).map(row => this.#level(row)));
    return this.#levels.get(key);
  }

  #level([start, length, name, nameLength, prelude, preludeLength]) {
    const end = prelude + preludeLength;
    const condition = conditionAt(this.source, [name, name + nameLength], [prelude, end]);
    return { condition, span: [start, start + length], head: [start, end] };
  }

  #rule([, start, length, isClosed, prelude, preludeLength], selectors, numbers, levels) {
    const items = this.#items(numbers, levels);
    return {
      kind: 'rule',
      selectors: rowsOf(selectors, OF_SELECTOR).map(row => this.#selector(row)),
      items,
      declarations: declarationsIn(items),
      levels,
      head: [prelude, prelude + preludeLength],
      isClosed: isClosed === 1,
      span: [start, start + length],
    };
  }

  #selector([start, length, isRead, ids, classes, types, element, name, isAny]) {
    const at = (from, to) => this.source.at([from, to]), end = start + length;
    return {
      text: at(start, end),
      front: at(start, element) + (isAny ? '*' : ''),
      pseudoElement: element < end ? at(name, end) : null,
      specificity: isRead ? [ids, classes, types] : null,
      span: [start, end],
    };
  }

  #declaration(row) {
    const [, start, length, isClosed] = row;
    return {
      kind: 'declaration', declaration: declarationAt(this.source, row), isClosed: isClosed === 1, span: [start, start + length],
    };
  }

  /** Makes an at-rule, or something that is skipped. */
  #other(row, levels) {
    const [kind, start, length] = row;
    return kind < FAULTS ? this.#atRule(row, levels) : this.#fault(REASONS[kind - FAULTS], start, start + length, levels);
  }

  #fault(reason, start, past, levels) {
    let end = past;
    while (end > start && isBlank(this.source.data[end - 1])) end -= 1;
    return { kind: 'skipped', reason, levels, span: [start, end] };
  }

  #atRule([kind, start, length, isClosed, name, nameLength, prelude, preludeLength, block, blockLength], levels) {
    const end = start + length, inner = kind === AT_RULE ? [block, block + blockLength] : [end, end];
    return {
      kind: 'at-rule',
      rule: placed({
        name: lower(this.source.at([name, name + nameLength])),
        prelude: this.source.at([prelude, prelude + preludeLength]),
        block: kind === AT_RULE ? this.source.at(inner) : null,
        conditions: conditionsOf(levels),
      }, this.source, [start, end]),
      levels,
      isClosed: isClosed === 1,
      span: [start, end],
      inner,
    };
  }
}

/** Whether a byte is white space: TAB, LF, FF, CR or a space. */
function isBlank(byte) {
  return byte === 32 || byte === 9 || byte === 10 || byte === 12 || byte === 13;
}

/** Returns where a text is whose offsets are so much less. */
const moved = ([start, end], by) => [start + by, end + by];

/** Returns the declaration that is in a span, with its name and value between these offsets. */
export function declared(source, span, nameSpan, valueSpan, important, isClosed) {
  const name = source.at(nameSpan), text = source.at(valueSpan), value = isClosed ? text : closed(text);
  return placed({ name: name.startsWith('--') ? name : lower(name), value, important }, source, span);
}

/** Returns a value with what the end of the text closes: a string or a comment, and brackets. */
function closed(value) {
  return call('close', [encode(value)]) ?? value;
}

const conditionsOfLevels = new WeakMap();

/** Returns the conditions of group rules. Rules in the same ones share them. */
export function conditionsOf(levels) {
  if (!conditionsOfLevels.has(levels)) conditionsOfLevels.set(levels, levels.map(level => level.condition));
  return conditionsOfLevels.get(levels);
}

/** Returns the declarations of a block. */
function declarationsIn(items) {
  return items.filter(item => item.kind === 'declaration').map(item => item.declaration);
}

/** Returns the statements of a style sheet, the text of this number, also those in its group rules. */
export function readSheet(text, number = 0) {
  const reader = new Reader(text, number);
  return { source: reader.source, statements: reader.statements() };
}

/** Whether elements are matched by a selector, or null if a text is none. */
export function isSupported(text) {
  const [found, ...more] = readSheet(`${text}{}`).statements;
  if (more.length || found?.kind !== 'rule' || found.selectors.length !== 1) return null;
  return found.selectors[0].specificity !== null;
}

/** Returns the declaration of a row of numbers that the library writes of an item. */
export function declarationAt(source, [, start, length, isClosed, name, nameLength, value, valueLength, isImportant]) {
  const spans = [[start, start + length], [name, name + nameLength], [value, value + valueLength]];
  return declared(source, ...spans, isImportant === 1, isClosed === 1);
}

/** Returns what a style attribute or the block of a rule has. */
export function readBlock(text) {
  const reader = new Reader(text);
  return { source: reader.source, items: reader.blockItems() };
}

/** Returns the declarations of a `style` attribute, in order. What is no declaration is skipped. */
export function declarations(text) {
  return declarationsIn(readBlock(text).items);
}
