// The C library as WebAssembly, and how it is called. Nothing is kept between calls but the module itself, and pages.

const DONE = 0, REFUSED = 1, TREE_FAULT = 2, OUT_OF_MEMORY = 3, TOO_MANY = 4, TOO_SMALL = 6,
  TOO_MANY_LAYERS = 7;
const FAULTS = ['', 'its depth', 'its name is empty', 'its strings', 'a key occurs twice'];
// The limit that allows any number, and the greatest number of 32 bits.
export const NO_LIMIT = 2n ** 64n - 1n;
const MOST_NARROW = 2n ** 32n - 1n;
// What may be written of a text: so many bytes or numbers, or so many for each byte of a longer text.
const MOST_WRITTEN = 2 ** 26, MOST_FOR_BYTE = 32, MOST_NUMBERS = 2 ** 23, MOST_NUMBERS_FOR_BYTE = 8;

const encoder = new TextEncoder();
// U+FEFF at the front is a character.
const decoder = new TextDecoder('utf-8', { ignoreBOM: true });

/** The rules of a style sheet would hold more declarations than its limit, or an answer would have more than its own. */
export class LimitError extends RangeError {
  name = 'LimitError';
}

/** A tree has a fault in the element of this index. */
export class TreeError extends Error {
  name = 'TreeError';

  constructor(reason, element) {
    super(`element ${element}: ${reason}`);
    this.reason = reason;
    this.element = element;
  }
}

/** An edit of a style sheet, of this index, would be read as something else. */
export class EditError extends Error {
  name = 'EditError';

  constructor({ text, start }, index) {
    super(`at ${start}: this would be read as something else: ${JSON.stringify(text)}`);
    this.index = index;
    this.text = text;
    this.start = start;
  }
}

/** Throws a `TypeError` for an option that is none of these. */
export function expectOptions(options, names) {
  if (options === undefined || options === null) return;
  if (typeof options !== 'object') throw new TypeError('options are an object');
  for (const each of Object.keys(options)) if (!names.includes(each)) throw new TypeError(`unknown option: ${each}`);
}

let library;
// Whether the module is compiled from the erased sources: its numbers have 32 bits, and not 64.
let isErased;
// Functions that return the two modules, or their bytes. The first one has the table in which the second one puts its functions.
const sources = {
  first() { throw new Error('simplecss: call load first'); },
  second() { throw new Error('simplecss: call loadSecond first'); },
};
const TABLE = '%table';

/** Says what returns the first module or the second one, or their bytes. Each is asked for when something of it is called. */
export function provide(given) {
  Object.assign(sources, given);
}

/** Returns a compiled module. */
function compiled(source) {
  return source instanceof WebAssembly.Module ? source : new WebAssembly.Module(source);
}

/** Starts a compiled module. Those that are exported use the one that was started last. */
function start(module) {
  const imports = {};
  for (const { module: space, name } of WebAssembly.Module.imports(module)) {
    // In place of a function of the second module, which replaces it in the table.
    const ask = (...words) => {
      new WebAssembly.Instance(compiled(sources.second()), { primary: started });
      return started[TABLE].get(Number(name))(...words);
    };
    imports[space] = { ...imports[space], [name]: ask };
  }
  const started = new WebAssembly.Instance(module, imports).exports;
  library = started;
  isErased = library.simplecss_is_erased !== undefined;
}

/** Starts the first module, if none is. */
function ready() {
  if (!library) start(compiled(sources.first()));
}

/** Whether the library is the one that is proved, and not one that is compiled from the erased sources. */
export function isProved() {
  ready();
  return !isErased;
}

/** Returns a number for a module whose numbers have 32 bits: one that is too great for it stands for the greatest. */
function narrowed(number) {
  return Number(number < MOST_NARROW ? number : MOST_NARROW);
}

/** Calls a function of the module with numbers. */
function invoke(name, numbers) {
  return library[name](...(isErased ? numbers.map(narrowed) : numbers));
}

/** Returns the bytes of a text, or of numbers as the module has them: a half of one of 64 bits is 0. */
function bytesOf(word) {
  let numbers = word;
  if (word instanceof Uint32Array && !isErased) {
    numbers = new Uint32Array(2 * word.length);
    word.forEach((number, index) => { numbers[2 * index] = number; });
  }
  return new Uint8Array(numbers.buffer, numbers.byteOffset, numbers.byteLength);
}

/** Returns a number of the module's memory. */
function sizeAt(view, at) {
  return isErased ? view.getUint32(at, true) : Number(view.getBigUint64(at, true));
}

/** Returns how many bytes a number of the module has. */
function sizeLength() {
  return isErased ? 4 : 8;
}

/** Returns the numbers of bytes of the module's memory. */
function numbersOf(bytes) {
  const view = new DataView(bytes.buffer, bytes.byteOffset, bytes.length), size = sizeLength();
  return Array.from({ length: bytes.length / size }, (_, index) => sizeAt(view, index * size));
}

/** Returns what is compiled from a Response, or what will be one, from bytes, or a compiled module. */
async function compiledOf(source) {
  const given = await source;
  if (given instanceof WebAssembly.Module) return given;
  const isResponse = globalThis.Response !== undefined && given instanceof Response;
  return isResponse ? WebAssembly.compileStreaming(given) : WebAssembly.compile(given);
}

/** Compiles the first module, and starts it. */
export async function load(source) {
  start(await compiledOf(source));
}

/** Compiles the second module, for the calls that are in it. */
export async function loadSecond(source) {
  const module = await compiledOf(source);
  provide({ second: () => module });
}

/** Refuses what is not a text. */
export function expectText(text) {
  if (typeof text !== 'string') throw new TypeError(`a text is expected, not ${text === null ? 'null' : typeof text}`);
}

/** Returns the text in UTF-8, with U+FFFD for a surrogate without the other one of its pair, as CSS reads it. */
export function encode(text) {
  expectText(text);
  return encoder.encode(text);
}

export function decode(bytes) {
  return decoder.decode(bytes);
}

/** Numbers that are passed as an array of the library. */
export function sizes(numbers) {
  return Uint32Array.from(numbers);
}

/** The bytes of texts one after another, and where each ends. */
export function joined(texts) {
  const whole = texts.join('');
  const bytes = encode(whole);
  if (bytes.length === whole.length) return [bytes, endsOf(texts)];
  // Each text by itself: the halves of a pair in two texts are no character.
  return joinedBytes(texts.map(encode));
}

/** The bytes of texts, which are encoded, one after another, and where each ends. */
export function joinedBytes(parts) {
  const all = new Uint8Array(parts.reduce((sum, part) => sum + part.length, 0));
  let end = 0;
  for (const part of parts) {
    all.set(part, end);
    end += part.length;
  }
  return [all, endsOf(parts)];
}

/** Where each of several parts ends that are one after another. */
function endsOf(parts) {
  const ends = [];
  let end = 0;
  for (const part of parts) {
    end += part.length;
    ends.push(end);
  }
  return sizes(ends);
}

/** Returns a limit as a number of the library. `Infinity` is no limit. */
export function limited(limit) {
  if (typeof limit !== 'number' || Number.isNaN(limit)) throw new TypeError('a limit is a number');
  return limit === Infinity ? NO_LIMIT : BigInt(Math.max(0, Math.floor(limit)));
}

/** Returns how much may be written of a text of this length. */
export function mostWritten(length) {
  return BigInt(Math.max(MOST_WRITTEN, MOST_FOR_BYTE * length));
}

/** Returns how many numbers may be written of a text of this length. */
export function mostNumbers(length) {
  return BigInt(Math.max(MOST_NUMBERS, MOST_NUMBERS_FOR_BYTE * length));
}

/** Takes room of the module's memory. */
function take(length) {
  const at = BigInt.asUintN(isErased ? 32 : 64, BigInt(invoke('simplecss_take', [BigInt(length)])));
  if (!at) throw new RangeError('out of memory');
  return at;
}

/** Copies a text, sizes or the elements of a tree into the module's memory. Returns its place and its length, or of a structure
 * its place: one of arrays has the place and the length of each. */
function placed(word) {
  if (typeof word === 'bigint') return [word];
  if (word.structure) return placed(new Uint8Array(word.structure.buffer)).slice(0, 1);
  if (word.arrays) {
    const numbers = word.arrays.flatMap(placed);
    return placed({ structure: isErased ? Uint32Array.from(numbers, narrowed) : BigUint64Array.from(numbers) });
  }
  const bytes = bytesOf(word), at = take(bytes.length);
  new Uint8Array(library.memory.buffer, Number(at), bytes.length).set(bytes);
  return [at, BigInt(word.count ?? word.length)];
}

/**
 * Calls a function of the library. Returns what it writes, or null where it refuses a selector.
 *
 * `room` is the length of the first buffer; a call that needs a longer one is made again. `most` is the most bytes that the
 * answer may have. A call that takes a tree reports its fault. Of some the answer is in numbers, of others in bytes.
 */
export function call(name, words, options = {}) {
  return answered(name, options, () => {
    reset();
    return words.flatMap(placed);
  });
}

/**
 * What is asked by the grammar of the Rust crate: the printed sheet of texts, its rules, what is skipped of a text, which rules match
 * each element, what wins on each, and which elements a list of selectors matches.
 */
export const PORT_SHEET = 0n;
export const PORT_RULES = 1n;
export const PORT_SKIPPED = 2n;
export const PORT_MATCHES = 3n;
export const PORT_STYLES = 4n;
export const PORT_SELECTED = 5n;
/** A tree without elements: no array has an item. */
export const NO_TREE = { arrays: [[], [], [], []].map(sizes).concat(0n, sizes([])) };

/** Asks the library by the grammar of the Rust crate, of texts, which are joined, and of the elements of a tree. */
export function askPort(asked, texts, limit, tree, options) {
  return call('port', [...texts, limit, asked, tree ?? NO_TREE], { most: NO_LIMIT, hasTree: true, ...options });
}

/** Frees what was taken of the module's memory. What the library keeps, stays. */
function reset() {
  ready();
  library.simplecss_reset();
}

/** Calls a function of the library with what is given to it before each try, and returns what it writes. */
function answered(name, { room = 65536, most, hasTree = false, isNumbers = false, isBytes = false }, prepare) {
  for (;;) {
    const given = prepare();
    if (most !== undefined) given.push(most);
    const size = isNumbers ? sizeLength() : 1;
    const out = take(room * size), length = take(24);
    given.push(out, BigInt(room), length);
    if (hasTree) given.push(length + 8n);
    const status = invoke(`simplecss_${name}`, given);
    const view = new DataView(library.memory.buffer, Number(length), 24);
    const written = sizeAt(view, 0);
    if (status === DONE) {
      const answer = new Uint8Array(library.memory.buffer, Number(out), written * size);
      if (isBytes) return answer.slice();
      return isNumbers ? numbersOf(answer) : decode(answer);
    }
    if (status === REFUSED) return null;
    if (status !== TOO_SMALL) throw failure(name, status, view);
    room = written;
  }
}

/**
 * Makes what the library keeps of words, asks it, and lets it go. Returns what `ask` does, which is given a function that asks a
 * question, or null where the words are refused. Nothing else may be called meanwhile: a call frees its handle.
 */
function whileKept(kind, words, ask) {
  reset();
  const handle = take(sizeLength());
  new Uint8Array(library.memory.buffer, Number(handle), sizeLength()).fill(0);
  const status = invoke(`simplecss_${kind}_new`, [...words.flatMap(placed), handle]);
  if (status === REFUSED) return null;
  if (status !== DONE) throw failure(`${kind}_new`, status);
  try {
    return ask((name, options, more = []) => answered(`${kind}_${name}`, options, () => [handle, ...more]));
  } finally {
    invoke(`simplecss_${kind}_free`, [handle]);
  }
}

/** Makes the list of selectors that a text is, asks it as `ask` does, and lets it go. Returns null where the text is no list. */
export function askList(text, grammar, ask) {
  return whileKept('list', [text, grammar], ask);
}

/** What a style sheet is asked: in numbers its statements, and what is in its style rules; and as a text its imports. */
export const STATEMENTS = 0n;
export const CONTENTS = 1n;
export const IMPORTS = 2n;

/** Returns the numbers of what a style sheet is asked. */
export function sheetNumbers(data, asked, options = {}) {
  const all = { most: NO_LIMIT, ...options, isNumbers: true };
  return whileKept('sheet', [data], ask => ask('numbers', all, [asked]));
}

/** Returns the text of what a style sheet is asked: its imports, or the sheet in a layout. */
export function sheetText(data, asked, options = {}) {
  return whileKept('sheet', [data], ask => ask('text', options, [asked]));
}

/** Lets go what a module keeps at a place, unless another one was started since. */
function freeKept({ module, at, kind }) {
  if (module !== library) return;
  reset();
  invoke(`simplecss_${kind}_free`, placed({ arrays: [at] }));
}

// What nobody can ask any more is let go.
const unreachable = new FinalizationRegistry(freeKept);

/** What the library keeps of what is passed, until `close`, or until nobody can ask it any more. */
class Kept {
  #kept;

  constructor(kind, words) {
    reset();
    const given = words.flatMap(placed), [handle] = placed({ arrays: [0n] }), end = take(24);
    const status = invoke(`simplecss_${kind}_new`, [...given, handle, end + 8n]);
    const { buffer } = library.memory;
    if (status !== DONE) throw failure(`${kind}_new`, status, new DataView(buffer, Number(end), 24));
    const at = BigInt(sizeAt(new DataView(buffer, Number(handle), sizeLength()), 0));
    this.#kept = { module: library, at, kind };
    unreachable.register(this, this.#kept, this);
  }

  /** Whether another module was started since, which has nothing of it. */
  get isLeft() { return this.#kept.module !== library; }

  /** Returns the numbers that a question has for an answer. */
  ask(name, words, options) {
    const { at, kind } = this.#kept;
    return call(`${kind}_${name}`, [{ arrays: [at] }, ...words], { isNumbers: true, ...options });
  }

  /** Lets it go. */
  close() {
    unreachable.unregister(this);
    freeKept(this.#kept);
    this.#kept.at = 0n;
  }
}

/** A tree that is asked which of its elements selectors match, whose names compare as a grammar says. The library has a copy. */
export class KeptPage extends Kept {
  constructor(tree, grammar) {
    super('page', [tree, grammar]);
  }

  /**
   * Returns the indices of the elements from one up to another that a list of selectors matches, or null where it is refused.
   * `:scope` matches the element at an index, or with -1 the root.
   */
  select(selectors, scope, start, end) {
    const words = [selectors, ...[scope + 1, start, end].map(BigInt)];
    // Each element is written once at most.
    const numbers = this.ask('select', words, { room: end - start, most: NO_LIMIT });
    return numbers && numbers.map(number => number - 1);
  }
}

/**
 * What a query is asked: what wins on each element, also of some properties, which rules match it, which declarations of a property
 * apply to it, and the rules.
 */
export const WINNERS = 0n;
export const WINNERS_NAMED = 1n;
export const MATCHES = 2n;
export const EXPLAINED = 3n;
export const RULES = 4n;

/** A tree with style sheets and elements' own declarations, of which the library has copies. */
export class KeptQuery extends Kept {
  constructor(tree, grammar, sheets, limit, own) {
    super('query', [tree, grammar, sheets, limit, own]);
  }

  /** Returns the numbers of what is asked of the elements from one index up to another, of the property that has these names. */
  numbers(asked, names, start, end, options) {
    const words = { arrays: [...joined(names), sizes(names.length > 0 ? [names.length] : [])] };
    return this.ask('numbers', [asked, words, BigInt(start), BigInt(end)], options);
  }

  /** Returns the numbers of the rules. */
  rules(options) { return this.numbers(RULES, [], 0, 0, { ...options, most: NO_LIMIT }); }

  /** Returns the bytes of the texts of the rules' selectors, one after another. */
  texts(options) { return this.ask('text', [], { ...options, isNumbers: false, isBytes: true }); }
}

/**
 * Reads a page in HTML, or the content of an element in a namespace, whose start tag without `<` and `>` is `context`. Returns its
 * numbers and the bytes of its strings.
 */
export function readPage(text, { space = 0n, context = '', flags = 0n } = {}) {
  ready();
  const words = [text, space, encode(context), flags], size = sizeLength();
  for (let room = Math.floor(text.length / 2) + 1024, length = text.length + 1024; ;) {
    library.simplecss_reset();
    const given = words.flatMap(placed), lengths = take(16);
    const out = take(room * size), strings = take(length);
    given.push(out, BigInt(room), lengths, strings, BigInt(length), lengths + 8n);
    const status = invoke('simplecss_html', given);
    const { buffer } = library.memory, view = new DataView(buffer, Number(lengths), 16);
    [room, length] = [sizeAt(view, 0), sizeAt(view, 8)];
    if (status === DONE) {
      const numbers = numbersOf(new Uint8Array(buffer, Number(out), room * size));
      return { numbers, strings: new Uint8Array(buffer, Number(strings), length).slice() };
    }
    if (status === TOO_MANY) throw new LimitError('elements are nested in a way that takes time or elements out of proportion');
    if (status === REFUSED) throw new NotWellFormed(length, room);
    if (status !== TOO_SMALL) throw failure('html', status, view);
  }
}

/** A text is not an XML document: the number of the reason, and the offset of what is wrong. */
export class NotWellFormed extends Error {
  constructor(reason, offset) {
    super('not well-formed');
    Object.assign(this, { reason, offset });
  }
}

/**
 * Returns the name of the encoding that a page in bytes is in, and what says it: a mark at its front, the label that comes with it,
 * its first 1,024 bytes, or nothing.
 */
export function encodingOf(page, label = '') {
  if (!(page instanceof Uint8Array)) throw new TypeError('the bytes of a page are expected');
  const [source, name] = call('html_encoding', [page, encode(label)], { room: 64 }).split('\t');
  return { name, source };
}

/** Returns the error that a status means. */
function failure(name, status, view) {
  if (status === OUT_OF_MEMORY) return new RangeError('out of memory');
  if (status === TREE_FAULT) {
    return new TreeError(FAULTS[view.getUint32(8, true)], sizeAt(view, isErased ? 12 : 16) - 1);
  }
  if (status === TOO_MANY) return new LimitError('more declarations than `limit`, or a longer answer than `answerLimit` allows');
  if (status === TOO_MANY_LAYERS) return new LimitError('the sheets have more than 1,024 layers');
  return new TypeError(`simplecss_${name}: status ${status}`);
}

/** Lines of numbers with spaces between them. A text whose length in bytes a line has is after it. */
export class Lines {
  #data;
  #at = 0;

  constructor(data) {
    this.#data = data;
  }

  /** Whether something is left. */
  get areLeft() { return this.#at < this.#data.length; }

  /** Returns the next line. */
  line() {
    const end = this.#data.indexOf(10, this.#at), found = this.text(end - this.#at);
    this.#at += 1;
    return found;
  }

  /** Returns the numbers of the next line. */
  numbers() { return this.line().split(' ').map(Number); }

  /** Returns the next text, of so many bytes. */
  text(length) {
    this.#at += length;
    return decode(this.#data.subarray(this.#at - length, this.#at));
  }

  /** Leaves the newline that ends texts. */
  endLine() { this.#at += 1; }
}

/** Returns numbers in rows of this length. */
export function rowsOf(numbers, width) {
  return Array.from({ length: numbers.length / width }, (_, index) => numbers.slice(index * width, (index + 1) * width));
}

/** Returns the version of the library. */
export function version() {
  return call('version', []);
}
