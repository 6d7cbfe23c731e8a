// Runs the test suites of css-select, css-what and jQuery with selectors that tests/judges.py reads and
// matches.
//
//     node judges.js SUITE FOLDER
//
// Writes what a suite asks and what it expects to standard output, as lines of JSON, and reads the answer to
// each question from standard input. FOLDER has the suite, in JavaScript, and NODE_PATH has htmlparser2 with
// the packages that it uses.
"use strict";

const fs = require("fs");
const path = require("path");
const { parseDocument } = require("htmlparser2");
const domutils = require("domutils");
const boolbase = require("boolbase");
const { Element } = require("domhandler");

// ---- questions and reports

let waiting = "";
// Whether a refused text throws, as it does where that is expected.
let throws = false;

function tell(message) {
    fs.writeSync(1, JSON.stringify(message) + "\n");
}

function ask(question) {
    tell({ kind: throws ? "refuse" : "find", ...question });
    const part = Buffer.alloc(65536);
    while (!waiting.includes("\n")) {
        const count = fs.readSync(0, part, 0, part.length);
        if (!count) throw new Error("no answer");
        waiting += part.toString("utf8", 0, count);
    }
    const end = waiting.indexOf("\n");
    const answer = JSON.parse(waiting.slice(0, end));
    waiting = waiting.slice(end + 1);
    return answer;
}

// Says why the expectations up to the next question are not judged.
function leaveOut(reason) {
    tell({ leftOut: reason });
}

// ---- trees

// The node as the other program reads it: a text, or an element as its name, attributes and children. Adds
// the elements to `nodes`.
function written(node, nodes) {
    if (node.type === "text") return node.data;
    if (node.type === "cdata") return node.children.map(each => each.data).join("");
    if (!domutils.isTag(node)) return null;
    nodes.push(node);
    const children = node.children.map(each => written(each, nodes));
    return [node.name, node.attribs, children.filter(each => each !== null && each !== "")];
}

// The elements of this forest that a text matches. Siblings of the forest are siblings; nothing is above.
function findIn(roots, text, options) {
    const nodes = [];
    const tree = roots.map(each => written(each, nodes)).filter(each => each !== null);
    const answer = ask({ ask: true, tree, text, xml: Boolean(options && options.xmlMode) });
    if (answer.refused && throws) throw new Error("refused");
    return answer.found.map(index => nodes[index]);
}

// What css-select searches for a context, as forests: what is below an element, and the elements of an array
// with what is below them.
function forests(context) {
    if (!Array.isArray(context)) return [context.children || []];
    const groups = new Map();
    for (const node of domutils.removeSubsets([...context])) {
        groups.set(node.parent, [...(groups.get(node.parent) || []), node]);
    }
    return [...groups.values()];
}

// ---- css-select, and the part of jest that it uses

// What these options change is no matter of selectors.
const OPTIONS = ["relativeSelector", "context", "quirksMode", "cacheResults"];

// Whether a call is of no text, or of such an option. Its expectations are left out.
function isOwn(query, options) {
    const given = options || {};
    const hasOwn = OPTIONS.some(each => each in given) || (given.adapter || {}).isHovered;
    if (typeof query === "string" && !hasOwn) return false;
    leaveOut("what css-select does besides selectors");
    return true;
}

function select(query, context, options) {
    if (isOwn(query, options)) return [];
    return forests(context).flatMap(each => findIn(each, query, options));
}

select.selectAll = select;
select.selectOne = (query, context, options) => select(query, context, options)[0] || null;
select.pseudos = {};

select.is = (element, query, options) => {
    if (isOwn(query, options)) return false;
    let top = element;
    while (top.parent) top = top.parent;
    return findIn(domutils.isTag(top) ? [top] : top.children || [], query, options).includes(element);
};

select.compile = (query, options) => {
    if (isOwn(query, options)) return query;
    if (ask({ ask: true, text: query }).refused && throws) throw new Error("refused");
    return { query };
};

// A document in which the texts of such tests match no element or all.
const PROBE = parseDocument("<a foo='baz bar'><b foo></b></a><foo><p><b></b></p></foo>").children;

select._compileUnsafe = query => {
    const found = findIn(PROBE, query);
    if (!found.length) return boolbase.falseFunc;
    return found.length === domutils.findAll(() => true, PROBE).length ? boolbase.trueFunc : query;
};

const names = [];
const before = [];

function named(name, body) {
    names.push(name);
    tell({ begins: true });
    try {
        body();
    } catch (error) {
        tell({ name: names.join(", "), thrown: true, holds: false, detail: String(error) });
    }
    names.pop();
}

function describe(name, body) {
    const count = before.length;
    named(name, body);
    before.length = count;
}

function it(name, body) {
    named(name, () => {
        before.forEach(each => each());
        body();
    });
}

it.skip = () => {};

function report(holds, detail) {
    tell({ name: names.join(", "), holds: Boolean(holds), detail });
}

function shown(value) {
    if (Array.isArray(value)) return value.slice(0, 20).map(shown);
    if (value && value.attribs) return `<${value.name} id="${value.attribs.id || ""}">`;
    return typeof value === "function" || value === undefined ? String(value) : value;
}

function isSame(one, other) {
    if (!Array.isArray(one) || !Array.isArray(other)) return Object.is(one, other);
    return one.length === other.length && one.every((each, index) => isSame(each, other[index]));
}

function hasAll(value, wanted) {
    if (typeof wanted !== "object") return value === wanted;
    return Boolean(value) && Object.keys(wanted).every(key => hasAll(value[key], wanted[key]));
}

function isThrowing(body) {
    throws = true;
    try {
        body();
        return false;
    } catch {
        return true;
    } finally {
        throws = false;
    }
}

const MATCHERS = {
    toBe: isSame,
    toStrictEqual: isSame,
    toContain: (value, wanted) => value.includes(wanted),
    toHaveLength: (value, wanted) => value.length === wanted,
    toBeTruthy: value => Boolean(value),
    toBeFalsy: value => !value,
    toBeNull: value => value === null,
    toBeGreaterThanOrEqual: (value, wanted) => value >= wanted,
    toHaveProperty: (value, key, wanted) => hasAll(value, { [key]: wanted }),
    toMatchObject: hasAll,
    toThrow: isThrowing,
    toThrowError: isThrowing,
};

function expect(value) {
    if (value && value.readBy) return value;
    const found = { not: {} };
    for (const [name, holds] of Object.entries(MATCHERS)) {
        const detail = wanted => `${JSON.stringify(shown(value))} ${name} ${JSON.stringify(shown(wanted))}`;
        found[name] = (...words) => report(holds(value, ...words), detail(words[0]));
        found.not[name] = (...words) => report(!holds(value, ...words), `not ${detail(words[0])}`);
    }
    return found;
}

expect.assertions = () => {};

function useJest() {
    Object.assign(global, { describe, it, test: it, expect, beforeEach: each => before.push(each) });
}

// Runs the suites of a folder, for which `stub` is what they test.
function runSuites(folder, stub, suites) {
    useJest();
    global.stub = stub;
    fs.writeFileSync(path.join(folder, "src/index.js"), "module.exports = stub;");
    for (const suite of suites) require(path.join(folder, suite));
}

function runCssSelect(folder) {
    const names = ["attributes", "pseudo-classes", "api", "nwmatcher", "qwery", "sizzle"];
    runSuites(folder, select, names.map(each => `test/${each}.js`));
}

// ---- css-what, which reads selectors and matches none

function runCssWhat(folder) {
    const types = require(path.join(folder, "src/types.js"));
    const parse = text => {
        if (throws) {
            if (ask({ ask: true, text }).refused) throw new Error("refused");
        }
        const compare = wanted => tell({ name: names.join(", "), text, parsed: wanted });
        return { readBy: parse, text, toStrictEqual: compare, toEqual: compare };
    };
    const stringify = read => ask({ ask: true, text: read.text, kind: "read" }).printed;
    runSuites(folder, { ...types, parse, stringify }, ["src/parse.spec.js", "src/wpt.spec.js"]);
}

// ---- jQuery, and the part of QUnit that its tests of selectors use

let page = null;

const html = text => parseDocument(text, { decodeEntities: true });
const byId = id => domutils.getElementById(id, page.children);

class Found extends Array {
    get() {
        return [...this];
    }

    find(text) {
        return Found.from([...new Set(this.flatMap(each => [...select(text, each)]))]);
    }

    filter(text) {
        return Found.from([...this].filter(each => select.is(each, text)));
    }

    is(text) {
        return [...this].some(each => select.is(each, text));
    }

    has() {
        return this;
    }

    appendTo(name) {
        const [to] = name === "body" ? domutils.getElementsByTagName("body", page) : [byId(name.slice(1))];
        this.forEach(each => domutils.appendChild(to, each));
        return this;
    }

    attr(name, value) {
        this.forEach(each => each.setAttribute(name, value));
        return this;
    }

    // Properties, which no selector sees.
    prop() {
        return this;
    }

    remove() {
        this.forEach(domutils.removeElement);
        return this;
    }

    detach() {
        return this.remove();
    }

    val() {
        return this[0].attribs.value;
    }
}

Element.prototype.setAttribute = function (name, value) {
    this.attribs[name] = value;
};

function jQuery(what, context) {
    if (typeof what !== "string") return Found.from(Array.isArray(what) ? what : [what]);
    if (what.startsWith("<")) return Found.from(html(what).children);
    if (context === undefined) return Found.from(select(what, page));
    return jQuery(context).find(what);
}

jQuery.find = { compile: true };
jQuery.each = (values, body) => values.forEach((value, index) => body(index, value));

const assert = {
    expect() {},
    ok: holds => report(holds, "ok"),
    equal: (one, other) => report(one == other, `${one} is not ${other}`),
    deepEqual: (one, other) => report(isSame([...one], [...other]), JSON.stringify([one, other].map(shown))),
    notStrictEqual: (one, other) => report(one !== other, "the same"),
    t: (name, text, ids) => assert.deepEqual(jQuery(text).map(each => each.attribs.id).get(), ids),
    selectInFixture(name, text, ids) {
        assert.deepEqual(jQuery(text, "#qunit-fixture").map(each => each.attribs.id).get(), ids);
    },
};

// The tests of the file that ask nothing of selectors.
const NO_SELECTORS = ["jQuery.contains", "jQuery.uniqueSort", "Iframe dispatch", "Ensure escapeSelector"];

function runJQuery(folder) {
    const read = name => fs.readFileSync(path.join(folder, "test", name), "utf8");
    const fixture = read("data/qunit-fixture.html");
    const index = read("index.html").replace('id="qunit-fixture">', each => each + fixture);
    const run = (name, text, body) => {
        if (NO_SELECTORS.some(each => name.startsWith(each))) return;
        page = html(text);
        named(name, body);
    };
    const test = (name, body) => run(name, index, () => body(assert));
    const QUnit = { module() {}, test };
    const testIframe = (name, file, body) => {
        run(name, read(`data/${file}`), () => body(assert, jQuery, { $cached: jQuery }, document));
    };
    const document = {
        getElementById: byId,
        getElementsByTagName: name => domutils.getElementsByTagName(name, page),
    };
    const q = (...ids) => ids.map(byId);
    const words = { QUnit, jQuery, document, q, testIframe, supportjQuery: jQuery, moduleTeardown: null };
    new Function(...Object.keys(words), read("unit/selector.js"))(...Object.values(words));
}

const SUITES = { "css-select": runCssSelect, "css-what": runCssWhat, jquery: runJQuery };
SUITES[process.argv[2]](path.resolve(process.argv[3]));
