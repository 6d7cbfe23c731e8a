// Printed style sheets: with no more bytes than are needed, or with a line for each declaration.
import { withComments } from './comments.mjs';
import { encode, sheetText } from './library.mjs';

// The layouts, as the library numbers them, and how the comments begin that are kept: any, and those of licences.
const SHORT = 0n, LINES = 1n, ANY = '/*', IMPORTANT = '/*!';

/** Returns a shorter text of a style sheet, with the same rules and declarations, and the comments that begin with `/*!`. */
export function minify(text) {
  const short = printed(text, SHORT, IMPORTANT);
  return short.length < text.length ? short : text;
}

/** Returns a text of a style sheet with a line for each rule and each declaration, and with the same of them and of comments. */
export function prettify(text) {
  return printed(text, LINES, ANY);
}

/** Returns a sheet in a layout, with the comments that begin so. */
function printed(text, layout, front) {
  const bare = bareOf(text, layout);
  if (!text.includes(front)) return bare;
  const result = withComments(text, bare, front, layout === LINES);
  // What is printed alike says the same.
  return result === bare || bareOf(result, layout) === bare ? result : text;
}

/** Returns a sheet as the library prints it, without comments. */
function bareOf(text, layout) {
  const data = encode(text);
  return sheetText(data, layout, { room: 256 + 2 * data.length });
}
