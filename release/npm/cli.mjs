#!/usr/bin/env node
// simplecss COMMAND [OPTION].. OPERAND..: what USAGE lists. The status is 1 if lint finds a mistake, a text is refused, select --quiet
// finds nothing or what clean --check reads is not clean, 2 for invalid arguments, and 4 if a file cannot be read or written.
import { parseArgs } from 'node:util';
import { minify, prettify, version } from './index.mjs';
import { Failure, UNREADABLE, USAGE_ERROR, caught, each } from './cli_files.mjs';
import { explain, inline, match, select, style, unused } from './cli_pages.mjs';
import { checkFile, cleanFile, editFile, explainKind, lintFile, printFile } from './cli_sheets.mjs';
import { SHELLS } from './completions.mjs';
import { provide } from './library.mjs';
import second from './second_bytes.mjs';
import { Server } from './server.mjs';

const USAGE = `usage: simplecss select [--attr NAME|--count|--quiet] [--grammar G] [--json] SELECTORS PAGE..
       simplecss match [DEVICE].. [--grammar G] [--json] SHEET.. PAGE..
       simplecss style [DEVICE].. [--grammar G] [--json] SHEET.. PAGE.. NAME
       simplecss explain --sheet SHEET.. [DEVICE].. [--json] SELECTORS NAME PAGE
       simplecss inline [--keep-style] [--no-important] [-o PATH] PAGE.. [SHEET..]
       simplecss unused [--json] SHEET.. PAGE..
       simplecss lint [--grammar G] [--select KIND].. [--ignore KIND].. [--fix] [--json] SHEET..
       simplecss lint --explain KIND
       simplecss minify|prettify [-o FILE] [--json] SHEET
       simplecss edit [--prefix TEXT] [--scope SELECTOR] [-o FILE] [--json] SHEET
       simplecss clean --scope SELECTOR|--style [POLICY].. [--report] [-o FILE] [--json] SHEET
       simplecss clean --scope SELECTOR|--style [POLICY].. --check SHEET..
       simplecss completions bash|zsh|fish
       simplecss lsp [--stdio]
       simplecss --help | --version
A PAGE is a file in UTF-8 whose name ends in .html or .htm, or in .xhtml, .xht, .svg or .xml if it is XML, or the last operand, or
the first one of inline, which takes HTML alone; a SHEET is another one, and - is standard input. PATH is a file, or a folder for
several pages. inline adds no !important in any case. G is modern or simplecss. A DEVICE is --media screen|print|speech, --width PX, --height PX or --dark. A POLICY is
--policy mail|comment, --add NAME or --remove NAME of a property, --limit NAME=LIMIT, --prefix PREFIX or
--at-rule supports|container|layer|keyframes. lsp serves an editor: it reports the mistakes in style sheets. The package for Python,
whose command has the same name, reads other encodings, the sheets that pages link to and settings of a project, and has compare and
more options of inline, edit and lsp, too.`;
const OPTIONS = {
  grammar: { type: 'string' }, ignore: { type: 'string', multiple: true }, select: { type: 'string', multiple: true },
  fix: { type: 'boolean' }, explain: { type: 'string' }, json: { type: 'boolean' }, output: { type: 'string', short: 'o' },
  sheet: { type: 'string', multiple: true }, attr: { type: 'string' }, count: { type: 'boolean' }, quiet: { type: 'boolean' },
  media: { type: 'string' }, width: { type: 'string' }, height: { type: 'string' }, dark: { type: 'boolean' },
  scope: { type: 'string' }, style: { type: 'boolean' }, policy: { type: 'string' },
  add: { type: 'string', multiple: true }, remove: { type: 'string', multiple: true }, limit: { type: 'string', multiple: true },
  prefix: { type: 'string' }, 'at-rule': { type: 'string', multiple: true }, check: { type: 'boolean' }, report: { type: 'boolean' },
  'keep-style': { type: 'boolean' }, 'no-important': { type: 'boolean' }, stdio: { type: 'boolean' },
  help: { type: 'boolean', short: 'h' }, version: { type: 'boolean' },
};
const DEVICE = ['media', 'width', 'height', 'dark'], SHOWN = ['attr', 'count', 'quiet'], TYPES = ['screen', 'print', 'speech'];
const POLICY = ['scope', 'style', 'policy', 'add', 'remove', 'limit', 'prefix', 'at-rule'];
// What each command does, the options that it takes, and how many operands it has at least and at most.
const COMMANDS = {
  select: { run: select, taken: ['grammar', 'json', ...SHOWN], least: 2 },
  match: { run: match, taken: ['grammar', 'json', ...DEVICE], least: 2 },
  style: { run: style, taken: ['grammar', 'json', ...DEVICE], least: 3 },
  explain: { run: explain, taken: ['sheet', 'json', ...DEVICE], least: 3, most: 3 },
  inline: { run: inline, taken: ['keep-style', 'no-important', 'output'], least: 1 },
  unused: { run: unused, taken: ['json'], least: 2 },
  lint: { run: each(lintFile), taken: ['grammar', 'ignore', 'select', 'fix', 'json'], least: 1 },
  minify: { run: each(printFile(text => `${minify(text)}\n`)), taken: ['output', 'json'], least: 1, most: 1 },
  prettify: { run: each(printFile(prettify)), taken: ['output', 'json'], least: 1, most: 1 },
  edit: { run: each(editFile), taken: ['prefix', 'scope', 'output', 'json'], least: 1, most: 1 },
  clean: { run: each(cleanFile), taken: [...POLICY, 'report', 'output', 'json'], least: 1, most: 1 },
  completions: { run: completions, taken: [], least: 1, most: 1 },
  lsp: { run: serve, taken: ['stdio'], least: 0, most: 0 },
};
// What clean does with --check, and lint with --explain.
const CHECK = { run: each(checkFile), taken: [...POLICY, 'check'], least: 1 }, EXPLAIN = { run: explainKind, taken: ['explain'], least: 0, most: 0 };

/** Returns the command with its options and operands, or null for invalid arguments. */
function words() {
  try {
    const { values, positionals: [name, ...operands] } = parseArgs({ options: OPTIONS, allowPositionals: true });
    if (values.help || values.version) return values;
    const known = Object.hasOwn(COMMANDS, name) ? COMMANDS[name] : null, isExplained = name === 'lint' && 'explain' in values;
    const command = name === 'clean' && values.check ? CHECK : isExplained ? EXPLAIN : known;
    const { grammar = 'modern', ignore = [] } = values;
    const isTaken = Object.keys(values).every(each => command?.taken.includes(each)) && SHOWN.filter(each => each in values).length < 2;
    const isRight = isTaken && ['modern', 'simplecss'].includes(grammar) && isDevice(values) && (known !== COMMANDS.clean || isPolicy(values));
    const isMany = operands.length >= command?.least && operands.length <= (command.most ?? Infinity);
    return isRight && isMany ? { ...values, grammar, ignore, command, operands } : null;
  } catch {
    return null;
  }
}

/** Whether options name a policy, and either a scope or a style attribute. */
function isPolicy({ policy = 'mail', scope, style }) {
  return ['mail', 'comment'].includes(policy) && (scope === undefined) === (style === true);
}

/** Whether options name a device. */
function isDevice({ media = 'screen', width = '0', height = '0' }) {
  return TYPES.includes(media) && [width, height].every(each => /^\d{1,10}$/.test(each) && Number(each) < 2 ** 32);
}

/** Prints the completion of a shell. Returns the status. */
function completions({ operands: [shell] }) {
  if (!Object.hasOwn(SHELLS, shell)) throw new Failure(USAGE_ERROR, 'a shell is bash, zsh or fish');
  const formsOf = taken => taken.map(each => `--${each}`);
  const every = Object.entries(COMMANDS).map(([name, { taken }]) => [name, formsOf(taken)]);
  console.log(SHELLS[shell](every));
  return 0;
}

/** Answers an editor until it says to end. Returns the status. */
async function serve() {
  // The editor is gone.
  process.stdout.on('error', () => process.exit(UNREADABLE));
  const status = await new Server(process.stdin, data => process.stdout.write(data)).run();
  // The program ends now, also if the editor leaves the pipe open.
  process.stdin.destroy();
  return status;
}

/** Does what the words ask for, and returns the status or what will be it. */
function run(given) {
  provide({ second });
  if (!given) {
    console.error(USAGE);
    return USAGE_ERROR;
  }
  if (given.help || given.version) {
    console.log(given.help ? USAGE : `simplecss ${version()}`);
    return 0;
  }
  return caught(() => given.command.run(given));
}

process.exitCode = await run(words());
