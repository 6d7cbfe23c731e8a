// The files that the commands read and write, and what they print.
import { randomBytes } from 'node:crypto';
import {
  accessSync, chmodSync, chownSync, closeSync, constants, fsyncSync, lstatSync, mkdirSync, openSync, readFileSync, realpathSync, renameSync,
  rmSync, statSync, writeFileSync,
} from 'node:fs';
import { basename, dirname, join } from 'node:path';
import { LimitError, SelectorError, Tree } from './index.mjs';
import { printable } from './lint.mjs';

export const REFUSED = 1, USAGE_ERROR = 2, UNREADABLE = 4;
// The mark that a text in UTF-8 may begin with, and what asks about a file that may not be there.
const MARK = Buffer.of(0xef, 0xbb, 0xbf), MAYBE = { throwIfNoEntry: false };

/** Why a command ends, and with which status. */
export class Failure extends Error {
  constructor(status, message) {
    super(message);
    this.status = status;
  }
}

/** Returns why a file cannot be read or written. */
function reasonOf(error) {
  return error.code?.startsWith('E') && error.syscall ? error.message.replace(/^E\w+: |, \w+.*$/g, '') : 'not UTF-8';
}

// ---- what is read

/** Returns the bytes of a file, or of standard input. */
function bytesIn(file) {
  return readFileSync(file === '-' ? 0 : file);
}

/** Returns the text of a file in UTF-8. */
export function read(file) {
  return readMarked(file).text;
}

/** Returns the text of a file in UTF-8, and the mark at its front, or what stands for none. */
export function readMarked(file) {
  try {
    const data = bytesIn(file), mark = data.subarray(0, MARK.length);
    return { text: new TextDecoder('utf-8', { fatal: true }).decode(data), mark: mark.equals(MARK) ? '\ufeff' : '' };
  } catch (error) {
    throw new Failure(UNREADABLE, `cannot read ${file}: ${reasonOf(error)}`);
  }
}

export const isPage = file => /\.html?$/i.test(file), isXML = file => /\.(xhtml|xht|svg|xml)$/i.test(file);

/** Refuses a file that is not a style sheet by its name, and returns it. */
export function expectSheet(file) {
  if (isPage(file) || isXML(file)) throw new Failure(UNREADABLE, `cannot read ${file}: it is not a style sheet`);
  return file;
}

/** Returns the text of a sheet. */
export function readSheet(file) {
  return read(expectSheet(file));
}

/** Returns the tree of a page. */
export function readPage(file) {
  const text = read(file);
  room = Math.max(MOST_PRINTED, MOST_FOR_CHARACTER * text.length);
  return isXML(file) ? documentOf(file, text) : Tree.fromHTML(text);
}

/** Returns the tree of a document in XML. */
function documentOf(file, text) {
  try {
    return Tree.fromXML(text);
  } catch (error) {
    if (!(error instanceof SyntaxError)) throw error;
    throw new Failure(REFUSED, `${file}:${error.message}`);
  }
}

// ---- what is done with each

/** Returns a function that does something with each file. It returns the greatest status. */
export function each(run) {
  return ({ operands, ...options }) => Math.max(...operands.map(file => caught(() => run(file, options))));
}

/** Returns the status of what is done. Why it fails is printed. */
export function caught(run) {
  try {
    return run();
  } catch (error) {
    if (error instanceof Failure) return said(error.status, error.message);
    if (error instanceof SelectorError) return said(REFUSED, `selector refused: ${error.message}`);
    if (error instanceof LimitError) return said(REFUSED, error.message);
    throw error;
  }
}

/** Prints a message, and returns the status. */
export function said(status, message) {
  console.error(printable(message));
  return status;
}

// How many characters may yet be printed of a page, and how many at least: a selector is printed for each element that it matches.
let room = 0;
const MOST_PRINTED = 2 ** 26, MOST_FOR_CHARACTER = 32;

/** Prints a line. Data of a page has no commands to a terminal. */
export function print(text) {
  room -= text.length;
  if (room < 0) throw new LimitError('there would be too many characters');
  console.log(process.stdout.isTTY ? printable(text) : text);
}

// ---- what is written

/** Returns the files that texts of others are written into: the output, or one in it of the same name if that is a folder. Folders are made. */
export function outputsOf(output, files) {
  let isFolder = files.length !== 1 || /[/\\]$/.test(output);
  wrote(output, () => { isFolder ||= statSync(output, MAYBE)?.isDirectory(); });
  const paths = files.map(file => isFolder ? join(output, basename(file)) : output);
  if (new Set(paths).size < paths.length) throw new Failure(USAGE_ERROR, 'two of the pages have one name');
  wrote(output, () => mkdirSync(isFolder ? output : dirname(output), { recursive: true }));
  return paths;
}

/** Writes a text to a file, or to standard output where no file is named. Returns the status. */
export function writeText(output, text) {
  wrote(output, () => output === undefined ? writeFileSync(1, text) : writeWhole(output, text));
  return 0;
}

/** Does what writes a file. */
function wrote(output, write) {
  try {
    write();
  } catch (error) {
    throw new Failure(UNREADABLE, `cannot write ${output ?? 'standard output'}: ${reasonOf(error)}`);
  }
}

/**
 * Writes a file, which has its old content until all of the new one is stored: that is written beside it, and takes its place, its mode
 * and, where that is allowed, its owner. Of a symbolic link the file is written that it leads to. What is no file, such as a pipe, is
 * written to.
 */
function writeWhole(path, text) {
  const old = statSync(path, MAYBE), isLink = lstatSync(path, MAYBE)?.isSymbolicLink();
  const real = old ? realPathOf(path, old) : isLink ? null : path;
  if (real === null) return writeFileSync(path, text);
  if (old) accessSync(real, constants.W_OK);
  const beside = join(dirname(real), `.simplecss-${randomBytes(8).toString('hex')}`);
  try {
    store(beside, text, old);
    renameSync(beside, real);
  } catch (error) {
    rmSync(beside, { force: true });
    throw error;
  }
}

/** Returns the path of a file without symbolic links, or null for what is no file, or at no path. */
function realPathOf(path, { dev, ino }) {
  try {
    const real = realpathSync(path), found = statSync(real);
    return found.isFile() && found.dev === dev && found.ino === ino ? real : null;
  } catch {
    return null;
  }
}

/** Makes a file with the mode and the owner of another one, and stores it on the disk. */
function store(path, text, old) {
  const file = openSync(path, 'wx', old ? 0o600 : 0o666);
  try {
    writeFileSync(file, text);
    fsyncSync(file);
  } finally {
    closeSync(file);
  }
  if (!old) return;
  own(path, old);
  chmodSync(path, old.mode & 0o7777);
}

/** Gives a file the owner of another one, if the system allows that. */
function own(path, { uid, gid }) {
  try {
    chownSync(path, uid, gid);
  } catch {
    // It stays that of the one who runs the program.
  }
}
