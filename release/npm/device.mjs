// Devices: what media queries say on them, and which conditions of `@supports` hold.
import { call, encode, expectOptions, expectText, joined } from './library.mjs';
import { properties } from './properties.mjs';
import { headOf, lower } from './reading.mjs';

// The types of devices, and the words of other fields, by number.
const TYPES = ['screen', 'print', 'speech'], POINTERS = ['none', 'coarse', 'fine'], GAMUTS = ['srgb', 'p3', 'rec2020'];
const UPDATES = ['none', 'slow', 'fast'], SCRIPTING = ['none', 'initial-only', 'enabled'];
const DISPLAY_MODES = [
  'browser', 'minimal-ui', 'standalone', 'fullscreen', 'window-controls-overlay', 'picture-in-picture', 'tabbed',
];
const CONTRASTS = ['no-preference', 'more', 'less', 'custom'];
// A resolution is told in thousandths.
const THOUSAND = 1000;
const USUAL = {
  width: 1280, height: 800, type: 'screen', resolution: 1, dark: false, reducedMotion: false, hover: true, pointer: 'fine',
  color: 8, colorIndex: 0, monochrome: 0, colorGamut: 'srgb', highDynamicRange: false, grid: false, scripting: 'enabled',
  displayMode: 'browser', reducedTransparency: false, contrast: 'no-preference', forcedColors: false,
  anyHover: false, anyPointer: 'none',
};

// The fields of a device: those without a usual value follow from others.
const FIELDS = [...Object.keys(USUAL), 'deviceWidth', 'deviceHeight', 'update'];

/** Returns a number of a device. */
function numbered(name, number) {
  if (Number.isInteger(number) && number >= 0 && number < 2 ** 32) return number;
  throw new RangeError(`the ${name} of a device is from 0 to 2^32 - 1`);
}

/** Returns the number of a word of a device. */
function chosen(name, word, words) {
  expectText(word);
  const found = words.indexOf(lower(word));
  if (found < 0) throw new RangeError(`the ${name} of a device is ${words.join(', ')}, not ${word}`);
  return found;
}

/** Returns a size of a device, or 0 for that of a page. */
function own(name, number) {
  if (number === undefined) return 0;
  if (number === 0) throw new RangeError(`the ${name} of a device is from 1 to 2^32 - 1`);
  return numbered(name, number);
}

/** Returns the words of pointers, in lower case. */
function pointersOf(words) {
  expectText(words);
  return words.split(/\s+/).filter(Boolean).map(word => POINTERS[chosen('anyPointer', word, POINTERS)]);
}

/** Returns a device as the library takes it: from what is named of it, or from its type. */
export function deviceOf(media) {
  if (typeof media !== 'string') expectOptions(media, FIELDS);
  const device = { ...USUAL, ...typeof media === 'string' ? { type: media } : media };
  const type = chosen('type', device.type, TYPES);
  const pointers = pointersOf(device.anyPointer);
  return { structure: Uint32Array.of(
    numbered('width', device.width), numbered('height', device.height),
    numbered('resolution', Math.round(device.resolution * THOUSAND)),
    type, chosen('pointer', device.pointer, POINTERS), device.hover, device.dark, device.reducedMotion,
    own('deviceWidth', device.deviceWidth), own('deviceHeight', device.deviceHeight),
    numbered('color', device.color), numbered('colorIndex', device.colorIndex), numbered('monochrome', device.monochrome),
    chosen('colorGamut', device.colorGamut, GAMUTS), device.highDynamicRange, device.grid,
    chosen('update', device.update ?? (TYPES[type] === 'print' ? 'none' : 'fast'), UPDATES),
    chosen('scripting', device.scripting, SCRIPTING), chosen('displayMode', device.displayMode, DISPLAY_MODES),
    device.reducedTransparency, chosen('contrast', device.contrast, CONTRASTS), device.forcedColors,
    device.anyHover, pointers.includes('coarse'), pointers.includes('fine'),
  ) };
}

/** Whether the rules of a group rule apply on a device, or where a function decides so. Those of layers always do. */
export function holds(condition, media) {
  if (condition.name === 'layer') return true;
  const isMedia = condition.name === 'media';
  if (typeof media === 'function') return Boolean(media(isMedia ? condition.prelude : headOf(condition)));
  if (isMedia) return call('media', [encode(condition.prelude), deviceOf(media)]) === 'true';
  return condition.name === 'supports' && call('supports', [encode(condition.prelude), ...joined(properties)]) === 'true';
}
