// A server for editors, which speaks the Language Server Protocol 3.17: it reports what `lint` finds in style sheets, offers the
// corrections, and says how specific a selector is.
import { fixed, version } from './index.mjs';
import { FrameError, Frames, framed } from './frames.mjs';
import { foundIn, printable } from './lint.mjs';
import { selectorAt } from './pointed.mjs';
import { lastAtMost } from './reading.mjs';
import { wordsOf } from './sheet.mjs';

// The numbers of errors: JSON-RPC's, and the protocol's own.
const NO_JSON = -32700, NO_REQUEST = -32600, NO_METHOD = -32601, NO_PARAMS = -32602, NOT_READY = -32002, FAILED = -32803;
// How many characters all documents have at most, one that is read, and a text that is shown; and how many mistakes of a document are
// reported.
const MOST = 2 ** 26, MOST_READ = 2 ** 22, SHOWN = 200, MOST_MARKS = 1000;
const SEVERITIES = { error: 1, warning: 2, note: 3 }, QUICK = 'quickfix', FIX_ALL = 'source.fixAll.simplecss';
// The url of a style sheet: no name of a file has the character 0.
const IS_SHEET = /^file:[^?#\0]*\.css(?:[?#]|$)/i, LONGEST_URL = 4096;
const decoder = new TextDecoder('utf-8', { fatal: true, ignoreBOM: true });

/** A request that is not answered, and the number of the error. */
class Refused extends Error {
  constructor(code, reason) {
    super(reason);
    this.code = code;
  }
}

/** Whether something is an object of JSON. */
const isObject = value => typeof value === 'object' && value !== null && !Array.isArray(value);

/** Returns what objects in objects have of these keys, or null. */
function member(params, ...keys) {
  return keys.reduce((found, key) => isObject(found) && Object.hasOwn(found, key) ? found[key] : null, params);
}

function textOf(params, ...keys) {
  const found = member(params, ...keys);
  if (typeof found !== 'string') throw new Refused(NO_PARAMS, `${keys.join('.')} must be a string`);
  return found;
}

function numberOf(params, ...keys) {
  const found = member(params, ...keys);
  if (!Number.isSafeInteger(found) || found < 0) throw new Refused(NO_PARAMS, `${keys.join('.')} must be a number, 0 or more`);
  return found;
}

/** Returns the version of a document, which some editors do not say. */
function versionOf(params) {
  const found = member(params, 'textDocument', 'version');
  return Number.isSafeInteger(found) ? found : undefined;
}

/** Returns a text as it is shown. */
const shownOf = text => [...printable(text)].slice(0, SHOWN).join('');

/** A document that is open in an editor. */
class Document {
  #lines;

  constructor(url, language, version, text) {
    Object.assign(this, { url, language, version, text: text.replace(/\p{Surrogate}/gu, '\ufffd') });
    this.isSheet = language === 'css' || url.length <= LONGEST_URL && IS_SHEET.test(url);
    this.size = url.length + text.length;
    this.marks = [];
  }

  /** The indices at which lines begin. */
  get lines() {
    this.#lines ??= [0, ...Array.from(this.text.matchAll(/\r\n|\n|\r/g), found => found.index + found[0].length)];
    return this.#lines;
  }

  /** Returns where an index is, as the protocol writes it. */
  #position(index) {
    const line = lastAtMost(this.lines, index, start => start);
    return { line, character: index - this.lines[line] };
  }

  range(start, end) { return { start: this.#position(start), end: this.#position(end) }; }

  /** Returns the index of a position: in a shorter line that of its end, and within a character of two units that of the character. */
  index(params, ...keys) {
    const line = numberOf(params, ...keys, 'line'), unit = numberOf(params, ...keys, 'character');
    if (line >= this.lines.length) return this.text.length;
    const start = this.lines[line], next = this.lines[line + 1] ?? this.text.length + 1;
    const end = next - (this.text.slice(next - 2, next) === '\r\n' ? 2 : 1);
    const index = Math.min(start + unit, end);
    return index > start && this.text.codePointAt(index - 1) > 0xffff ? index - 1 : index;
  }

  /** Finds the mistakes. */
  look() { this.marks = this.isSheet ? this.#found() : []; }

  #found() {
    if (this.text.length > MOST_READ) return [this.#mark({ message: `it has more than ${MOST_READ} characters` })];
    try {
      const found = foundIn(this.text), marks = found.slice(0, MOST_MARKS).map(each => this.#mark(each));
      const left = found.length - marks.length;
      return left > 0 ? [...marks, this.#mark({ severity: 'note', message: `${left} more mistakes are not shown` })] : marks;
    } catch (error) {
      return [this.#mark({ message: error.message })];
    }
  }

  /** Returns something that is found: where it begins and ends, how it is reported, and what corrects it. */
  #mark({ start = 0, end = 0, severity = 'error', kind: code = 'unread', message, fix = null }) {
    const diagnostic = { range: this.range(start, end), severity: SEVERITIES[severity], code, source: 'simplecss', message };
    return { start, end, fix, diagnostic };
  }

  /** Returns the corrections of what is between two indices. */
  fixes(start, end) {
    return this.marks.filter(mark => mark.fix && mark.start <= end && start <= mark.end).map(mark => this.#fixOf(mark));
  }

  #fixOf({ diagnostic, fix: { start, end, text } }) {
    const title = `${start === end ? 'Insert' : 'Replace with'} \`${shownOf(text)}\``;
    return { title, kind: QUICK, diagnostics: [diagnostic], isPreferred: true, edit: this.#edit(start, end, text) };
  }

  /** Returns what corrects the sheet, as `lint --fix` does. */
  fixAll() {
    const text = this.isSheet ? fixed(this.text) : this.text;
    if (text === this.text) return [];
    return [{ title: 'Correct all that has one right answer', kind: FIX_ALL, edit: this.#edit(0, this.text.length, text) }];
  }

  #edit(start, end, newText) {
    return { changes: { [this.url]: [{ range: this.range(start, end), newText }] } };
  }

  /** Returns how specific the selector at an index is. */
  hover(index) {
    const found = this.isSheet && this.text.length <= MOST_READ ? selectorAt(this.text, index) : null;
    if (found === null) return null;
    const value = `${shownOf(wordsOf(found.text).join(' '))}\nspecificity ${found.specificity.join()}`;
    return { contents: { kind: 'plaintext', value }, range: this.range(found.start, found.end) };
  }
}

/** Whether a kind of actions is among those that are asked for. */
const isAsked = (kind, only) => Array.isArray(only) && only.some(each => `${kind}.`.startsWith(`${each}.`));

/** Answers the messages of an editor. */
export class Server {
  #frames;
  #write;
  #documents = new Map();
  // The documents that have changed since they were looked at.
  #changed = new Set();
  #size = 0;
  #isReady = false;
  #isShut = false;
  #said = '';

  /** Takes a stream, and what writes bytes. */
  constructor(stream, write) {
    this.#frames = new Frames(stream);
    this.#write = write;
  }

  /** Answers until it is to end, or the input does. Returns the exit status. */
  async run() {
    for (;;) {
      try {
        const data = await this.#frames.next();
        if (data === null || this.#take(data)) return this.#isShut ? 0 : 1;
      } catch (error) {
        if (!(error instanceof FrameError)) throw error;
        this.#refuse(null, NO_JSON, error.message);
        if (error.isLast) return 1;
        continue;
      }
      // Of a document that is changed at once again nothing is reported.
      if (!this.#frames.hasMore) this.#report();
    }
  }

  // ---- messages

  #send(message) { this.#write(framed({ jsonrpc: '2.0', ...message })); }

  #refuse(id, code, message) { this.#send({ id, error: { code, message } }); }

  /** Shows a message to the person, once. */
  #say(reason) {
    if (reason === this.#said) return;
    this.#said = reason;
    this.#send({ method: 'window/showMessage', params: { type: 1, message: printable(`simplecss: ${reason}`) } });
  }

  /** Takes a message. Returns whether it says to end. */
  #take(data) {
    const message = messageOf(data);
    if (message === undefined) {
      this.#refuse(null, NO_JSON, 'a message is not JSON in UTF-8');
      return false;
    }
    const method = member(message, 'method'), id = member(message, 'id'), params = member(message, 'params');
    const isRequest = isObject(message) && Object.hasOwn(message, 'id'), isNumbered = typeof id === 'string' || Number.isSafeInteger(id);
    if (typeof method !== 'string' || isRequest && !isNumbered) {
      const isAnswer = isNumbered && ['result', 'error'].some(key => Object.hasOwn(message, key));
      if (!isAnswer) this.#refuse(null, NO_REQUEST, 'a message is not a request');
      return false;
    }
    if (!isRequest && method === 'exit') return true;
    this.#try(isRequest ? id : undefined, method, params);
    return false;
  }

  /** Answers a request, or takes a notification, which has no number. */
  #try(id, method, params) {
    try {
      if (id === undefined) this.#note(method, params);
      else this.#send({ id, result: this.#answer(method, params) });
    } catch (error) {
      if (!(error instanceof Refused)) this.#refuse(id ?? null, FAILED, error.message);
      else if (id === undefined) this.#say(`${method}: ${error.message}`);
      else this.#refuse(id, error.code, error.message);
    }
  }

  /** Returns the result of a request. */
  #answer(method, params) {
    if (method === 'initialize' && !this.#isReady) return this.#initialize();
    if (!this.#isReady) throw new Refused(NOT_READY, 'the server is not initialized');
    if (this.#isShut || method === 'initialize') throw new Refused(NO_REQUEST, `${method} is not expected now`);
    if (method === 'textDocument/codeAction') return this.#corrections(params);
    if (method === 'textDocument/hover') {
      const document = this.#document(params);
      return document.hover(document.index(params, 'position'));
    }
    if (method !== 'shutdown') throw new Refused(NO_METHOD, `unknown method ${method}`);
    this.#isShut = true;
    return null;
  }

  #initialize() {
    this.#isReady = true;
    const capabilities = {
      positionEncoding: 'utf-16', textDocumentSync: { openClose: true, change: 1 }, hoverProvider: true,
      codeActionProvider: { codeActionKinds: [QUICK, FIX_ALL] },
    };
    return { capabilities, serverInfo: { name: 'simplecss', version: version() } };
  }

  /** Takes a notification. Others than these are of nothing that the server does. */
  #note(method, params) {
    if (!this.#isReady || this.#isShut) return;
    if (method === 'textDocument/didOpen') {
      const [url, language, text] = ['uri', 'languageId', 'text'].map(key => textOf(params, 'textDocument', key));
      this.#keep(url, language, versionOf(params), text);
    } else if (method === 'textDocument/didChange') this.#change(params);
    else if (method === 'textDocument/didClose') this.#close(this.#document(params));
  }

  // ---- documents

  #document(params) {
    const found = this.#documents.get(textOf(params, 'textDocument', 'uri'));
    if (!found) throw new Refused(NO_PARAMS, 'the document is not open');
    return found;
  }

  /** Keeps a document, in place of an earlier one. */
  #keep(url, language, version, text) {
    const size = this.#size - (this.#documents.get(url)?.size ?? 0) + url.length + text.length;
    if (size > MOST) throw new Refused(NO_PARAMS, `the documents have more than ${MOST} characters`);
    this.#documents.set(url, new Document(url, language, version, text));
    this.#size = size;
    this.#changed.add(url);
  }

  #change(params) {
    const { url, language } = this.#document(params), changes = member(params, 'contentChanges');
    const last = Array.isArray(changes) ? changes.at(-1) : null;
    if (last === null || last === undefined || member(last, 'range')) throw new Refused(NO_PARAMS, 'contentChanges has no whole text');
    this.#keep(url, language, versionOf(params), textOf(last, 'text'));
  }

  #close({ url, size }) {
    this.#size -= size;
    this.#documents.delete(url);
    this.#changed.delete(url);
    this.#publish(url, []);
  }

  #corrections(params) {
    const document = this.#document(params), only = member(params, 'context', 'only');
    const [start, end] = ['start', 'end'].map(each => document.index(params, 'range', each));
    this.#report();
    const fixes = only === null || isAsked(QUICK, only) ? document.fixes(start, end) : [];
    return [...fixes, ...isAsked(FIX_ALL, only) ? document.fixAll() : []];
  }

  /** Reports what is found in the documents that have changed. */
  #report() {
    for (const url of this.#changed) {
      const document = this.#documents.get(url);
      document.look();
      this.#publish(url, document.marks.map(mark => mark.diagnostic), document.version);
    }
    this.#changed.clear();
  }

  #publish(uri, diagnostics, version) {
    this.#send({ method: 'textDocument/publishDiagnostics', params: { uri, diagnostics, version } });
  }
}

/** Returns the value of a message in JSON, or undefined for what is none. */
function messageOf(data) {
  try {
    return JSON.parse(decoder.decode(data));
  } catch {
    return undefined;
  }
}
