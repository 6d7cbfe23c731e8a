// The library with its first module in it. The second one is loaded when something of it is called, which returns a promise.
import bytes from './bytes.mjs';
import { provide } from './library.mjs';

provide({ first: bytes });
export * from './first.mjs';

/** Returns a function that calls one of the second module, once that is loaded. */
function later(name) {
  return async (...words) => (await import('./rest.mjs'))[name](...words);
}

export const clean = /* @__PURE__ */ later('clean');
export const cleanStyle = /* @__PURE__ */ later('cleanStyle');
export const edit = /* @__PURE__ */ later('edit');
export const fixed = /* @__PURE__ */ later('fixed');
export const inline = /* @__PURE__ */ later('inline');
export const hasValidReferences = /* @__PURE__ */ later('hasValidReferences');
export const isClean = /* @__PURE__ */ later('isClean');
export const isCleanStyle = /* @__PURE__ */ later('isCleanStyle');
export const isInherited = /* @__PURE__ */ later('isInherited');
export const isValidValue = hasValidReferences;
export const lint = /* @__PURE__ */ later('lint');
export const longhands = /* @__PURE__ */ later('longhands');
export const policy = /* @__PURE__ */ later('policy');
export const resolve = /* @__PURE__ */ later('resolve');
export const shorthands = /* @__PURE__ */ later('shorthands');
export const takesValue = /* @__PURE__ */ later('takesValue');
