// What the server for editors of the npm package writes, for tests/release.py: in JSON of standard input is a list of inputs, each of
// which is a list of parts in base64 that come one after another. For each it prints the status and what is written, in base64.
import { readFileSync } from 'node:fs';

const [folder] = process.argv.slice(2);
const [{ Server }, { provide }, { default: second }] = await Promise.all(
  ['server', 'library', 'second_bytes'].map(name => import(`${folder}/${name}.mjs`)));
provide({ second });

/** Yields the parts of an input. */
async function* streamOf(parts) {
  for (const part of parts) yield Buffer.from(part, 'base64');
}

const found = [];
for (const parts of JSON.parse(readFileSync(0, 'utf8'))) {
  const written = [];
  const status = await new Server(streamOf(parts), data => written.push(data)).run();
  found.push([status, Buffer.concat(written).toString('base64')]);
}
process.stdout.write(JSON.stringify(found));
