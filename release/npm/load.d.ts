/**
 * Compiles the module `simplecss.wasm` and starts it, before anything else of `simplecss/load` is called. The source is what
 * `fetch` returns, the module's bytes, or a compiled module.
 */
export function load(source: WasmSource | Promise<WasmSource>): Promise<void>;
/**
 * Compiles the module `second.wasm`, before the functions are called that it answers: those for cleaning, mistakes and the values
 * of properties, from `clean` to `takesValue`.
 */
export function loadSecond(source: WasmSource | Promise<WasmSource>): Promise<void>;
/** A response, bytes, or a compiled module. */
export type WasmSource = { arrayBuffer(): Promise<ArrayBuffer> } | ArrayBuffer | ArrayBufferView | object;
export * from './index.js';
