// The library with its modules in it, for node, browsers and bundlers alike.
import bytes from './bytes.mjs';
import { provide } from './library.mjs';
import * as simplecss from './simplecss.mjs';

provide({ first: bytes });
export * from './simplecss.mjs';
export default simplecss;
