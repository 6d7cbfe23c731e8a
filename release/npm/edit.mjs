// Style sheets that are edited by places. The library writes them, and reads what it wrote again.
import { EditError, TreeError, call, encode, expectOptions, expectText, joinedBytes, sizes } from './library.mjs';

// What a text takes the place of, in the order of the library's numbers.
const PARTS = ['prelude', 'value', 'block', 'statements', 'contents'];

/** Returns an edit with its index, if it is one. */
function checked(edit, index) {
  expectOptions(edit, ['start', 'end', 'part', 'text']);
  expectText(edit.text);
  if (!PARTS.includes(edit.part)) throw new TypeError(`a part is ${PARTS.join(', ')}`);
  if (![edit.start, edit.end].every(Number.isSafeInteger)) throw new TypeError('an edit has a start and an end');
  return { ...edit, index };
}

/** Returns how many bytes are before each of these indices of a text. */
function bytesBefore(text, indices) {
  const found = new Map();
  let last = 0, count = 0;
  for (const index of [...new Set(indices)].sort((a, b) => a - b)) {
    count += encode(text.slice(last, index)).length;
    found.set(index, count);
    last = index;
  }
  return found;
}

/** Returns a style sheet with edits in their places. What is not edited stays. */
export function edit(text, edits) {
  expectText(text);
  const given = Array.from(edits, checked).sort((a, b) => a.start - b.start || a.end - b.end);
  const at = bytesBefore(text, given.flatMap(each => [each.start, each.end]));
  const rows = given.flatMap(each => [1 + PARTS.indexOf(each.part), at.get(each.start), at.get(each.end)]);
  const data = encode(text), strings = joinedBytes(given.map(each => encode(each.text)));
  try {
    const room = 256 + data.length + strings[0].length;
    const found = call('edit', [data, sizes(rows), ...strings], { room, hasTree: true });
    if (found === null) throw new TypeError('edits have places in the text, and do not overlap');
    return found;
  } catch (error) {
    if (!(error instanceof TreeError)) throw error;
    const wrong = given[Math.min(error.element, given.length - 1)];
    throw new EditError(wrong, wrong.index);
  }
}
