// Mistakes in the sheets of standard input, for tests/checkout.py: of each those that the npm package finds, and the sheet corrected.
import { readFileSync } from 'node:fs';

const [folder] = process.argv.slice(2);
const css = await import(`${folder}/index.mjs`);

const found = text => css.lint(text).map(({ kind, row, column, endRow, endColumn, hint, fix }) => ({
  kind, place: [row, column, endRow, endColumn], hint, edit: fix ? [fix.start, fix.end, fix.text] : [],
}));

process.stdout.write(JSON.stringify(JSON.parse(readFileSync(0, 'utf8')).map(text => [found(text), css.fixed(text)])));
