import type * as all from './index.js';

/** A call of the second module, which is loaded when one of them is called for the first time. */
type Later<F extends (...words: never) => unknown> = (...words: Parameters<F>) => Promise<ReturnType<F>>;

export * from './index.js';
export const clean: Later<typeof all.clean>;
export const cleanStyle: Later<typeof all.cleanStyle>;
export const edit: Later<typeof all.edit>;
export const fixed: Later<typeof all.fixed>;
export const hasValidReferences: Later<typeof all.hasValidReferences>;
export const inline: Later<typeof all.inline>;
export const isClean: Later<typeof all.isClean>;
export const isCleanStyle: Later<typeof all.isCleanStyle>;
export const isInherited: Later<typeof all.isInherited>;
/** @deprecated It is now `hasValidReferences`. */
export const isValidValue: Later<typeof all.isValidValue>;
export const lint: Later<typeof all.lint>;
export const longhands: Later<typeof all.longhands>;
export const policy: Later<typeof all.policy>;
export const resolve: Later<typeof all.resolve>;
export const shorthands: Later<typeof all.shorthands>;
export const takesValue: Later<typeof all.takesValue>;
