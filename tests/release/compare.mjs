// Answers of the npm package, for tests/release.py: to each text of standard input, which is a length of 8 bytes and the bytes,
// the answer of each call, with its length first. A number is written with 8 bytes.
import { readFileSync, writeSync } from 'node:fs';

const [folder] = process.argv.slice(2);
const { Tree } = await import(`${folder}/index.mjs`);
const { KeptPage, NO_LIMIT, askList, call, joined, provide, sheetNumbers, sheetText, sizes } = await import(`${folder}/library.mjs`);
// The calls are made as they are, and the second module is to be there.
provide({ second: (await import(`${folder}/second_bytes.mjs`)).default });
const elements = Tree.elementsOf(new Tree(JSON.parse(readFileSync(process.argv[3], 'utf8'))));
const most = NO_LIMIT, hasTree = true, isNumbers = true;
/** The numbers of a list and its printed texts, or nothing of what is no list. */
const listOf = (text, grammar) =>
  askList(text, grammar, ask => [ask('numbers', { isNumbers }), ask('text', {})]) ?? [null, null];
const [grammar, tree] = elements.words('modern'), kept = new KeptPage(tree, grammar);
// The policy of compare.c.
const names = joined(['.x', '', 'color', 'x', 'rgb', 'color', 'hover', 'a', 'b', 'print']);
const policy = { arrays: [...names, 2n, 1n, 1n, 1n, 1n, 0n, 0n, 0n, 1n, 0n, NO_LIMIT] };
const input = readFileSync(0);
for (let at = 0; at < input.length; ) {
  const length = Number(input.readBigUInt64LE(at));
  const text = input.subarray(at + 8, at + 8 + length);
  at += 8 + length;
  const ends = sizes([length]), sheet = [text, ends, NO_LIMIT];
  const [portNumber, port] = elements.words('simplecss'), modern = elements.words('modern');
  const portAnswer = asked => call('port', [...sheet, asked, port], { most, hasTree });
  const answers = [
    ...[0n, 2n].map(portAnswer), ...listOf(text, portNumber), ...[1n, 3n, 4n, 5n].map(portAnswer),
    sheetNumbers(text, 0n), call('declarations', [text], { isNumbers }),
    sheetText(text, 2n), sheetNumbers(text, 1n),
    call('lint', [text, 1n]), call('taken', [text, 0n]), call('taken', [text, 3n]),
    call('clean', [text, policy, 0n]), call('clean', [text, policy, 1n]), call('dropped', [text, policy, 0n], { isNumbers }),
    call('html_encoding', [text, text]),
    call('close', [text]), sheetText(text, 0n), sheetText(text, 1n),
    call('spell', [text, 2n]), call('spell', [text, 3n]), call('spell', [text, 1n]),
    ...listOf(text, modern[0]),
    call('refusal', [text, ...modern], { hasTree }),
    kept.select(text, -1, 0, elements.names.length)?.map(index => index + 1),
    call('match_selectors', [text, ends, ...modern], { most, hasTree }),
  ];
  for (const answer of answers) {
    const bytes = Array.isArray(answer) ? Buffer.from(BigUint64Array.from(answer, BigInt).buffer) : Buffer.from(answer ?? '');
    const head = Buffer.alloc(8);
    head.writeBigUInt64LE(BigInt(bytes.length));
    writeSync(1, Buffer.concat([head, bytes]));
  }
}
