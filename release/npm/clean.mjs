// Style sheets and style attributes from strangers, made safe by a policy.
import { call, encode, expectOptions, expectText, joinedBytes, limited } from './library.mjs';
import { Source } from './reading.mjs';

// What the library is asked for, by its numbers: a form of text, whether one of them is clean, the lists of its own policies, and
// the urls of a text.
const SHEET = 0n, STYLE = 1n, IS_CLEAN = 2n, POLICIES = new Map([['mail', 4n], ['comment', 5n]]), URLS = 6n;
// What a policy has of names, in the order of the library. The urls and their answers are after the first four.
const LISTS = ['properties', 'functions', 'strings', 'pseudos', 'named', 'words', 'media'], NUMBERS = ['important', 'itself', 'longest'];
const NOTHING = { arrays: [...joinedBytes([encode(''), encode('')]), ...Array(11).fill(0n)] };
// How many urls of a text are answered. Others are refused.
const MOST_URLS = 1024;

/** Returns the lines of a policy of the library, by their first words. */
function linesOf(name) {
  const lines = call('clean', [encode(''), NOTHING, POLICIES.get(name)]).split('\n').slice(0, -1);
  return new Map(lines.map(line => line.split(' ')).map(([head, ...rest]) => [head, rest]));
}

/** Returns a policy of the library: 'mail' for the bodies of mails, or 'comment'. */
export function policy(name) {
  if (!POLICIES.has(name)) throw new TypeError(`a policy is ${[...POLICIES.keys()].join(' or ')}`);
  const lines = linesOf(name), lists = LISTS.map(each => [each, lines.get(each)]);
  const [important, itself, longest] = NUMBERS.map(each => Number(lines.get(each)[0]));
  const limits = Object.fromEntries(lines.get('limited').map((each, index) => [each, lines.get('limits')[index]]));
  return { ...Object.fromEntries(lists), limits, prefix: '', important: important !== 0, itself: itself !== 0, longest };
}

/** Returns a limit as a text. */
function limitText(limit) {
  return (typeof limit === 'string' ? limit : [...limit].join(',')).toLowerCase();
}

/** Returns the answers to the urls of a text, each with its url. */
function answersOf(data, url) {
  if (url === undefined) return [];
  const asked = [...new Set(call('clean', [data, NOTHING, URLS]).split('\0').slice(0, -1))].slice(0, MOST_URLS);
  return asked.map(each => [each, url(each)]).filter(([, answer]) => typeof answer === 'string');
}

/** Returns a scope and a policy as the library takes them, with what answers the urls of a text. */
function passed(data, scope, given, url) {
  expectText(scope);
  const whole = typeof given === 'string' ? policy(given) : { ...policy('mail'), ...given };
  expectOptions(whole, [...LISTS, ...NUMBERS, 'prefix', 'limits']);
  expectText(whole.prefix);
  const answers = answersOf(data, url), texts = LISTS.map(each => [...whole[each]].map(name => name.toLowerCase()));
  if (answers.length > 0) texts[1].push('url');
  const limits = Object.entries(whole.limits);
  const counts = [...texts.slice(0, 4), answers, ...texts.slice(4, 6), limits].map(each => BigInt(each.length));
  texts.splice(6, 0, limits.map(([each]) => each.toLowerCase()), limits.map(([, limit]) => limitText(limit)));
  texts.splice(4, 0, answers.map(([each]) => each), answers.map(([, answer]) => answer));
  const names = joinedBytes([scope, whole.prefix, ...texts.flat()].map(each => encode(each)));
  const flags = [whole.important, whole.itself].map(each => BigInt(Boolean(each)));
  return { arrays: [...names, ...counts, ...flags, limited(whole.longest)] };
}

/** Returns what the library writes, which refuses a scope that is none. */
function answered(name, words, scope, options) {
  const answer = call(name, words, options);
  if (answer === null) throw new TypeError(`a scope is a compound such as '.mail', not '${scope}'`);
  return answer;
}

/** Returns what is kept of a text of a form, and what is dropped. */
function cleaned(text, form, scope, given, url) {
  const source = new Source(text), words = [source.data, passed(source.data, scope, given, url), form];
  const kept = answered('clean', words, scope, { room: 256 + 2 * source.data.length });
  const numbers = answered('dropped', words, scope, { isNumbers: true }), reasons = linesOf('mail').get('reasons');
  const dropped = Array.from({ length: numbers.length / 3 }, (_, index) => {
    const [start, end, reason] = numbers.slice(3 * index, 3 * index + 3);
    return {
      ...source.position(start), reason: reasons[reason], text: source.at([start, end]), start: source.index(start), end: source.index(end),
    };
  });
  return { text: kept, dropped };
}

/** Whether a text of a form is clean, with each url its own answer. */
function told(text, form, scope, given, url) {
  const data = encode(text), itself = url && (each => url(each) === each ? each : null);
  return answered('clean', [data, passed(data, scope, given, itself), IS_CLEAN + form], scope) === 'true';
}

/** Returns what a policy allows of a style sheet, under a scope. */
export function clean(text, options) {
  expectOptions(options, ['scope', 'policy', 'url']);
  return cleaned(text, SHEET, options?.scope, options?.policy ?? 'mail', options?.url);
}

/** Returns what a policy allows of a style attribute. */
export function cleanStyle(text, options) {
  expectOptions(options, ['policy', 'url']);
  return cleaned(text, STYLE, '', options?.policy ?? 'mail', options?.url);
}

/** Whether a style sheet is one that a policy allows under a scope, as it is. */
export function isClean(text, options) {
  expectOptions(options, ['scope', 'policy', 'url']);
  return told(text, SHEET, options?.scope, options?.policy ?? 'mail', options?.url);
}

/** Whether a style attribute is one that a policy allows, as it is. */
export function isCleanStyle(text, options) {
  expectOptions(options, ['policy', 'url']);
  return told(text, STYLE, '', options?.policy ?? 'mail', options?.url);
}
