// What the second WebAssembly module answers.
export { clean, cleanStyle, isClean, isCleanStyle, policy } from './clean.mjs';
export { edit } from './edit.mjs';
export { inline } from './inline.mjs';
export { fixed, lint } from './lint.mjs';
export { hasValidReferences, isInherited, isValidValue, longhands, resolve, shorthands } from './resolving.mjs';
export { takesValue } from './taken.mjs';
