// The commands for style sheets.
import { EditError, clean, cleanStyle, isClean, isCleanStyle, lint, policy } from './index.mjs';
import { Failure, REFUSED, USAGE_ERROR, expectSheet, readMarked, readSheet, said, writeText } from './cli_files.mjs';
import { corrected, kindOf, kindsExplained, printable } from './lint.mjs';
import { scoped } from './scoping.mjs';

// The at-rules that a policy may allow beside those of media.
const AT_RULES = ['supports', 'container', 'layer', 'keyframes'];

/** Prints the mistakes of a file that one of some words begins, if there are words. Returns the status. */
export function lintFile(file, { grammar, ignore, select: words = [''], fix, json }) {
  const text = fix ? correctFile(file) : readSheet(file), isAsked = ({ kind }) => words.some(each => kind.startsWith(each));
  const found = lint(text, { grammar, ignore }).filter(isAsked), show = fix && file === '-' ? console.error : console.log;
  for (const { row, column, message, ...more } of found) {
    show(json ? JSON.stringify({ file, row, column, message, ...more }) : `${printable(file)}:${row}:${column}: ${message}`);
  }
  return found.length > 0 ? REFUSED : 0;
}

/** Corrects a sheet in its file, and returns it. That of standard input is printed. */
function correctFile(file) {
  const { text: sheet, mark } = readMarked(expectSheet(file)), { text, count } = corrected(sheet);
  if (count > 0) said(0, `${file}: ${count} corrected`);
  if (file === '-') writeText(undefined, text);
  else if (text !== sheet) writeText(file, mark + text);
  return text;
}

/** Prints what a kind of mistakes is. Returns the status. */
export function explainKind({ explain: kind }) {
  for (const [reason, [meaning, severity, wrong, right]] of kindsExplained()) {
    if (kindOf(reason) !== kind) continue;
    const lines = wrong ? [['wrong', wrong], ['right', right]] : [];
    console.log([`${kind} (${severity}): ${meaning}`, ...lines.map(each => `  ${each[0]}:  ${each[1].replaceAll('\\n', '\n          ')}`)].join('\n'));
    return 0;
  }
  throw new Failure(USAGE_ERROR, `unknown kind '${kind}'`);
}

/** Writes a text, or the JSON of more, to a file or to standard output. Returns the status. */
function written({ output, json }, css, more) {
  return writeText(output, json ? `${JSON.stringify(more)}\n` : css);
}

/** Returns a function that prints a sheet in another form, or writes it. */
export function printFile(print) {
  return (file, options) => {
    const css = print(readSheet(file));
    return written(options, css, { file, css });
  };
}

/** Returns what is asked of a file for clean, where a scope that is none is refused. */
function asked(file, ask) {
  const text = readSheet(file);
  try {
    return ask(text);
  } catch (error) {
    if (error instanceof TypeError) throw new Failure(USAGE_ERROR, error.message);
    throw error;
  }
}

/** Returns the policy that options name, with what they change of it. */
function policyOf({ policy: name = 'mail', add = [], remove = [], limit = [], prefix = '', 'at-rule': atRules = [] }) {
  const other = atRules.find(each => !AT_RULES.includes(each));
  if (other !== undefined) throw new Failure(USAGE_ERROR, `--at-rule is one of ${AT_RULES.join(', ')}, not '${other}'`);
  const known = policy(name), gone = new Set(remove.map(each => each.toLowerCase()));
  const limits = limit.map(each => each.split('=')).map(([property, ...rest]) => [property.toLowerCase(), rest.join('=')]);
  const properties = [...known.properties, ...add].filter(each => !gone.has(each.toLowerCase()));
  const media = [...known.media, ...atRules.map(each => `@${each}`)];
  return { ...known, properties, media, prefix, limits: { ...known.limits, ...Object.fromEntries(limits) } };
}

/** Prints what a policy allows of a file. Returns the status. */
export function cleanFile(file, options) {
  const { scope, style, report } = options, given = policyOf(options);
  const { text: css, dropped } = asked(file, text => style ? cleanStyle(text, { policy: given }) : clean(text, { scope, policy: given }));
  const status = written(options, css, { file, css, dropped });
  for (const { row, column, reason, text } of report ? dropped : []) said(0, `${file}:${row}:${column}: '${text}' is dropped: ${reason}`);
  return status;
}

/** Returns the status that says whether a file is clean. */
export function checkFile(file, options) {
  const { scope, style } = options, given = policyOf(options);
  return asked(file, text => style ? isCleanStyle(text, { policy: given }) : isClean(text, { scope, policy: given })) ? 0 : REFUSED;
}

/** Prints a file with other selectors. Returns the status. */
export function editFile(file, options) {
  const text = readSheet(file);
  try {
    const css = scoped(text, options);
    return written(options, css, { file, css });
  } catch (error) {
    if (!(error instanceof EditError)) throw error;
    throw new Failure(REFUSED, `${file}: ${error.message}`);
  }
}
