// What the second WebAssembly module answers, with this module in it. A bundler that finds none of it used leaves it out.
import { provide } from './library.mjs';
import * as calls from './second.mjs';
import second from './second_bytes.mjs';

/** Returns a call that says first where the module is. */
function withSecond(call) {
  return (...words) => {
    provide({ second });
    return call(...words);
  };
}

export const clean = /* @__PURE__ */ withSecond(calls.clean);
export const cleanStyle = /* @__PURE__ */ withSecond(calls.cleanStyle);
export const edit = /* @__PURE__ */ withSecond(calls.edit);
export const fixed = /* @__PURE__ */ withSecond(calls.fixed);
export const inline = /* @__PURE__ */ withSecond(calls.inline);
export const hasValidReferences = /* @__PURE__ */ withSecond(calls.hasValidReferences);
export const isClean = /* @__PURE__ */ withSecond(calls.isClean);
export const isCleanStyle = /* @__PURE__ */ withSecond(calls.isCleanStyle);
export const isInherited = /* @__PURE__ */ withSecond(calls.isInherited);
export const isValidValue = hasValidReferences;
export const lint = /* @__PURE__ */ withSecond(calls.lint);
export const longhands = /* @__PURE__ */ withSecond(calls.longhands);
export const policy = /* @__PURE__ */ withSecond(calls.policy);
export const resolve = /* @__PURE__ */ withSecond(calls.resolve);
export const shorthands = /* @__PURE__ */ withSecond(calls.shorthands);
export const takesValue = /* @__PURE__ */ withSecond(calls.takesValue);
