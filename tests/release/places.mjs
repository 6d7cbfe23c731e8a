// What the elements of pages have in the npm package, for tests/release.py: standard input has pages with their contexts, in JSON, where
// a context of `null` is that of a whole page, and `xml` means a document in XML; standard output has what their elements have.
import { readFileSync } from 'node:fs';

const [folder] = process.argv.slice(2);
const { Tree } = await import(`${folder}/index.mjs`);

/** Where something is, in characters. */
function placed(text, place) {
  return place && [place.start, place.end].map(at => [...text.slice(0, at)].length);
}

function elementsOf([context, text]) {
  const tree = context === 'xml' ? Tree.fromXML(text) : Tree.fromHTML(text, context === null ? {} : { context });
  return tree.elements.map(each => [
    each.name, each.namespace, each.isDrawn, each.text, placed(text, each.startTag), placed(text, each.endTag),
    [...each.attributePlaces].map(([name, place]) => [name, ...placed(text, place)]).sort()]);
}

process.stdout.write(JSON.stringify(JSON.parse(readFileSync(0, 'utf8')).map(elementsOf)));
