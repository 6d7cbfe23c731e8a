// All declarations of a property that apply to elements, and by what each loses to the one before it.
import { Places, everyBlock } from './nested.mjs';
import { declarations } from './reading.mjs';
import { takenStyle } from './taken.mjs';

// The criteria of CSS Cascading 5, section 6.1, by the numbers of the library. The first declaration loses by none.
const CRITERIA = [null, 'origin and importance', 'style attribute', 'layers', 'specificity', 'order of appearance'];
// How many numbers the library writes of a declaration that applies, and of one that wins.
const OF_CONTENDER = 3, OF_WINNER = 2;

/** Returns the name of the layer that group rules are in, or null. */
function layerOf(conditions) {
  const names = conditions.filter(each => each.name === 'layer').map(each => each.prelude || '(anonymous)');
  return names.length > 0 ? names.join('.') : null;
}

/** Returns a function that returns the layer of a rule, of those of sheets that are read. */
function layersOf(sheets, rules) {
  const places = sheets.map(each => new Places(everyBlock(each))), found = new Map();
  for (const { sheet, start } of [...rules].sort((a, b) => a.sheet - b.sheet || a.start - b.start)) {
    const key = `${sheet} ${start}`;
    if (!found.has(key)) found.set(key, layerOf(places[sheet].at(start)?.conditions ?? []));
  }
  return ({ sheet, start }) => found.get(`${sheet} ${start}`);
}

/**
 * Returns for each element the declarations of properties that apply to it, the strongest first, and the one that wins. The rules are
 * those of sheets that are read. Declarations of attributes with other values than may win are left out. More declarations than `limit`
 * are an error.
 */
export function explained(sheets, winning, elements, names, limit, values) {
  const own = elements.names.map((_, index) => takenStyle(elements.styleOf(index), values, elements.isForeign(index)));
  const layer = layersOf(sheets, winning.rules);
  const [numbers, winners] = winning.explained(elements, names, own, limit), selectors = winning.texts(), found = [];
  const contenderOf = (index, rule, place) => {
    const { declarations: those, specificity, ...at } = winning.rules[rule] ?? { declarations: declarations(own[index]) };
    const isOfRule = rule < selectors.length, selector = isOfRule ? selectors[rule] : null;
    return { declaration: those[place], selector, specificity: specificity ?? null, layer: isOfRule ? layer(at) : null };
  };
  for (let at = 0; at < numbers.length;) {
    const index = found.length, end = at + 1 + OF_CONTENDER * numbers[at], contenders = [];
    const won = `${winners.slice(OF_WINNER * index, OF_WINNER * (index + 1))}`;
    // Those before the one that wins are rolled back, and all are if none does.
    let isRolledBack = true;
    for (at += 1; at < end; at += OF_CONTENDER) {
      const [rule, place, criterion] = numbers.slice(at, at + OF_CONTENDER);
      isRolledBack = isRolledBack && `${rule},${place}` !== won;
      contenders.push({ ...contenderOf(index, rule, place), criterion: CRITERIA[criterion], isRolledBack });
    }
    found.push({ name: names[0], contenders, winner: contenders.find(each => !each.isRolledBack) ?? null });
  }
  return found;
}
