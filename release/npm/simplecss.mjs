// What programs use.
export * from './first.mjs';
export * from './rest.mjs';
