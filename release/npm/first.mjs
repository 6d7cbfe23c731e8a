// What the first WebAssembly module answers.
export { EditError, LimitError, TreeError, encodingOf, isProved, version } from './library.mjs';
export { minify, prettify } from './printing.mjs';
export { declarations, placeOf } from './reading.mjs';
export { Selector, StyleSheet, rules, styles } from './sheet.mjs';
export { Element, SelectorError, Tree, closest, matches, select } from './tree.mjs';
export { taken } from './taken.mjs';
export { escape, quote, tokens } from './tokens.mjs';
