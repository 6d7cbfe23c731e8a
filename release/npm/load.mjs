// The library without its modules, for pages that fetch `simplecss.wasm` and `second.wasm`.
export { load, loadSecond } from './library.mjs';
export * from './first.mjs';
export * from './second.mjs';
