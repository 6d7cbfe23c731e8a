// What a browser says of texts before and after they are cleaned. `input.kind` is the question.
"use strict";
// What the policy has of names, which `use` sets for each sheet.
const LONGHANDS = { background: ["background", "background-color", "background-attachment", "background-clip",
    "background-image", "background-origin", "background-position-x", "background-position-y",
    "background-repeat", "background-size"] };
let LISTED, PSEUDOS, WORDS, ITSELF;
function use({ properties, pseudos, media, itself }) {
    LISTED = new Set(properties.flatMap(name => LONGHANDS[name] || [name]));
    PSEUDOS = new Set(pseudos);
    WORDS = new Set(media);
    ITSELF = itself;
}
const OTHER_FUNCTION = /\b(?!(?:rgb|rgba|hsl|hsla|calc|var)\b)[-a-z]+\(/i;
// A value with `var()` stays as it is written: with any name after `@`, which the policy refuses, and with escapes, which it may need.
const isFine = value => !/evil|[@\\]/.test(value) && !OTHER_FUNCTION.test(value);
const newlines = text => text.replace(/\r\n?/g, "\n");

// ---- style attributes

function values(style) {
    const found = {};
    for (const name of style)
        found[name] = style.getPropertyValue(name) + (style.getPropertyPriority(name) ? "!" : "");
    return found;
}
function attribute(text) {
    const element = document.createElement("div");
    element.setAttribute("style", text);
    return values(element.style);
}
// In an attribute in quotes, escaped as HTML serializers do, in a style element and in a comment.
function isFramed(text) {
    const escaped = text.replace(/&/g, "&amp;").replace(/"/g, "&quot;");
    const page = document.createElement("template");
    page.innerHTML =
        `<div style="${escaped}"></div><style>x{${text}}</style><!-- ${text} --><i></i>`;
    const nodes = page.content.childNodes;
    return nodes.length == 4 && nodes[0].attributes.length == 1 && nodes[3].localName == "i"
        && nodes[0].getAttribute("style") === newlines(text)
        && nodes[1].textContent === `x{${newlines(text)}}`;
}
// What follows it in a sheet is read.
function isClosed(text) {
    const sheet = new CSSStyleSheet();
    sheet.replaceSync(`x{${text}}y{top:7px}`);
    const rules = sheet.cssRules;
    return rules.length == 2 && rules[1].style?.top == "7px" && rules[0].cssRules?.length === 0;
}
function style([raw, clean, policy]) {
    use(policy);
    const before = attribute(raw), after = attribute(clean);
    const isBad = found => Object.keys(found).some(n => !LISTED.has(n) || !isFine(found[n]));
    const lost = Object.keys(before).filter(name => LISTED.has(name) && before[name] !== ""
        && isFine(before[name]) && !name.startsWith("background") && after[name] !== before[name]);
    const more = Object.keys(after).filter(name => !(name in before));
    return { wasBad: isBad(before), bad: isBad(after), lost, more, framed: isFramed(clean),
        closed: isClosed(clean), wasFramed: isFramed(raw), wasClosed: isClosed(raw) };
}

// ---- sheets

// The selectors of a list, as the browser writes it.
function split(text) {
    const found = [];
    let depth = 0, quote = "", one = "";
    for (const sign of text.replace(/\\./g, each => "\u0001" + each[1])) {
        if (quote) quote = sign == quote ? "" : quote;
        else if (sign == '"' || sign == "'") quote = sign;
        else if ("([".includes(sign) && !one.endsWith("\u0001")) depth++;
        else if (")]".includes(sign) && !one.endsWith("\u0001")) depth--;
        if (sign == "," && !depth && !quote && !one.endsWith("\u0001")) {
            found.push(one);
            one = "";
        } else one += sign;
    }
    return [...found, one].map(each => each.replaceAll("\u0001", "\\").trim());
}
// What is left of a selector after one or two compounds at its front that mean the scope, and how it is joined to
// the scope.
function inner(selector) {
    let text = selector, joined = "";
    for (let left = 2; left > 0; left--) {
        const found = /^(?:html|body|:root|:host)(?![^\s>+~])\s*(>?)\s*/i.exec(text);
        if (!found) break;
        text = text.slice(found[0].length);
        joined = found[1];
    }
    return { text, joined };
}
function mayBeUnder(whole) {
    const { text: selector, joined } = inner(whole);
    if (selector == "") return ITSELF && !joined;
    // Escapes are written anew, so that nothing of them is refused.
    const bare = selector.replace(/\\(?:[0-9a-f]{1,6} ?|.)/gi, "x"), plain = bare.replace(/"[^"]*"/g, '""');
    if (/[&|<{}@]/.test(plain) || /[<{}@]/.test(bare)) return false;
    for (const found of plain.matchAll(/::?([-\w]+)/g)) if (!PSEUDOS.has(found[1])) return false;
    return !/^[>+~]/.test(plain);
}
function mayBeMedia(text) {
    return text == "" || text != "not all" && !/[<>=]/.test(text)
        && [...text.matchAll(/(?<![-\w.])[a-zA-Z][-\w]*/g)].every(x => WORDS.has(x[0].toLowerCase()));
}
function walk(rules, media, found, isTop) {
    for (const rule of rules) {
        const kind = rule.constructor.name;
        if (kind == "CSSMediaRule" && isTop) walk(rule.cssRules, rule.media.mediaText, found, false);
        else if (kind != "CSSStyleRule") found.push({ other: kind });
        else {
            const all = values(rule.style);
            for (const each of rule.cssRules)
                if (each.constructor.name == "CSSNestedDeclarations")
                    for (const [name, value] of Object.entries(values(each.style)))
                        if (!(all[name] || "").endsWith("!") || value.endsWith("!")) all[name] = value;
            const list = split(rule.selectorText), isNested = rule.cssRules.length > 0;
            found.push({ list, all, media, isNested });
        }
    }
    return found;
}
function parsed(text) {
    const sheet = new CSSStyleSheet();
    sheet.replaceSync(text);
    return walk(sheet.cssRules, "", [], true);
}
// What of a cleaned sheet is outside of the policy.
function outsideOfPolicy(rules) {
    const found = [];
    for (const rule of rules) {
        if (rule.other || rule.isNested) found.push(rule.other || "nested");
        for (const each of rule.list || [])
            if (!/^\.mail (?:> )?(?![>+~])/.test(each) && !(ITSELF && each == ".mail")) found.push(each);
        for (const [name, value] of Object.entries(rule.all || {}))
            if (!LISTED.has(name) || !isFine(value)) found.push(`${name}: ${value}`);
    }
    return found;
}
const under = list => list.map(inner)
    .map(({ text, joined }) => text == "" ? ".mail" : `.mail ${joined && joined + " "}${text}`).join();
// The rules of the raw sheet that are allowed, and not kept in their order.
function lostRules(before, after) {
    const lost = [];
    let next = 0;
    for (const rule of before) {
        if (rule.other || !rule.list.every(mayBeUnder) || !mayBeMedia(rule.media)) continue;
        const wanted = Object.keys(rule.all).filter(name => LISTED.has(name) && rule.all[name] !== ""
            && isFine(rule.all[name]) && !name.startsWith("background-"));
        if (!wanted.length) continue;
        const at = after.findIndex((one, k) => k >= next && one.list?.join() == under(rule.list)
            && one.media == rule.media && wanted.every(name => one.all[name] === rule.all[name]));
        if (at < 0) lost.push(rule.list.join());
        else next = at + 1;
    }
    return lost;
}
// The rules that are kept, and that the browser does not read in the raw sheet.
function addedRules(before, after) {
    const read = new Set(before.filter(rule => rule.list).map(rule => under(rule.list)));
    return after.filter(rule => rule.list && !read.has(rule.list.join())).map(rule => rule.list.join());
}
const PROPERTIES = ["color", "background-color", "background-image", "min-width", "font-size",
    "position", "display", "opacity", "z-index", "animation-name", "--host", "--hc", "--a", "content",
    "margin-top", "max-height", "counter-increment", "transform", "visibility", "overflow-x"];
// The computed styles outside of the scope.
function outside() {
    return [...document.querySelectorAll("html, body, p, a, div, pre")]
        .filter(element => !element.closest(".mail"))
        .map(element => [null, "::before"].map(pseudo => {
            const computed = getComputedStyle(element, pseudo);
            return PROPERTIES.map(name => computed.getPropertyValue(name)).join(";");
        }).join("|")).join("\n");
}
// Whether a sheet ends its element, and changes what is outside of the scope.
function inPage(text) {
    const slot = document.getElementById("slot");
    slot.innerHTML = "<style>zz{}</style>";
    const usual = outside();
    slot.innerHTML = `<style>${text}</style><i></i>`;
    const nodes = slot.childNodes;
    const framed = nodes.length == 2 && nodes[0].textContent === newlines(text)
        && nodes[1].localName == "i" && nodes[0].sheet !== null;
    const same = outside() === usual;
    slot.innerHTML = "";
    return { framed, same };
}
function sheet([raw, clean, policy]) {
    use(policy);
    const before = parsed(raw), after = parsed(clean);
    return { kept: after.length, bad: outsideOfPolicy(after), lost: lostRules(before, after), more: addedRules(before, after),
        after: inPage(clean), before: inPage(raw) };
}

// ---- at-rules

// The at-rules with rules in them: the name, and what is between it and the block.
const HEADS = {
    CSSMediaRule: rule => ["@media", rule.media.mediaText],
    CSSSupportsRule: rule => ["@supports", rule.conditionText],
    CSSContainerRule: rule => ["@container", rule.conditionText],
    CSSLayerBlockRule: rule => ["@layer", rule.name],
    CSSKeyframesRule: rule => [/^@[-a-z]+/.exec(rule.cssText)[0], rule.name],
};
const NAMED = new Set(["@layer", "@keyframes"]);
// The at-rules of a text, each with its rules: the list of selectors or of frames, and the color, if there is one.
function groups(text) {
    const sheet = new CSSStyleSheet();
    sheet.replaceSync(text);
    const others = [];
    const found = [...sheet.cssRules].filter(rule => rule.constructor.name != "CSSStyleRule").map(rule => {
        const kind = rule.constructor.name;
        if (!(kind in HEADS)) others.push(kind);
        const rules = [...rule.cssRules || []].map(one => [one.selectorText ?? one.keyText, one.style?.color,
            one.style?.length, one.constructor.name]);
        return { head: kind in HEADS ? HEADS[kind](rule) : [kind, ""], rules };
    });
    return { found, others };
}
// Whether a name may have a prefix, and a condition has nothing but what is listed.
function isHead([name, text], at) {
    if (name != "@media" && !at.includes(name)) return false;
    if (NAMED.has(name)) return /^[-\w\u0080-\uffff]+$/.test(text);
    if (name == "@supports") return !/["'<>=]|[-\w]\(/.test(text);
    return mayBeMedia(text) && !/[-\w]\(/.test(text);
}
// Whether a rule in an at-rule is kept.
function isInner(head, [list, color, , kind]) {
    if (head == "@keyframes") return kind == "CSSKeyframeRule" && color && /^[\d.]+%(, [\d.]+%)*$/.test(list);
    return kind == "CSSStyleRule" && color && split(list).every(mayBeUnder);
}
// What is due of the at-rules of a raw text.
function due({ found }, at, prefix) {
    return found.filter(({ head }) => isHead(head, at)).map(({ head: [name, text], rules }) => {
        const kept = rules.filter(one => isInner(name, one));
        return { head: [name, NAMED.has(name) ? prefix + text : text],
            rules: kept.map(([list, color]) => [name == "@keyframes" ? list : under(split(list)), color]) };
    }).filter(({ rules }) => rules.length);
}
function atRules([raw, clean, policy]) {
    use(policy);
    const after = groups(clean), wanted = due(groups(raw), policy.at, policy.prefix);
    const made = after.found.map(({ head, rules }) => ({ head,
        rules: rules.map(([list, color]) => [split(list).join(), color]) })).filter(({ rules }) => rules.length);
    const listed = wanted.map(({ head, rules }) => ({ head,
        rules: rules.map(([list, color]) => [split(list).join(), color]) }));
    return { wanted: JSON.stringify(listed), made: JSON.stringify(made), others: after.others,
        long: after.found.flatMap(({ rules }) => rules).filter(([, , length]) => length != 1).length,
        after: inPage(clean) };
}

// ---- threats

// Puts texts into the page, each where it belongs.
function threat([form, text]) {
    const element = document.createElement(form == "style" ? "p" : "style");
    if (form == "style") {
        element.setAttribute("style", text);
        element.setAttribute("data-u", input.base + "attr");
        element.textContent = "x";
    } else element.textContent = text;
    document.getElementById("mail").append(element);
}
function answer(found) {
    document.documentElement.textContent = "ANS" + "WER" + JSON.stringify(found) + "END";
}
window.onload = () => {
    if (input.kind == "threats") {
        input.work.forEach(threat);
        setTimeout(() => answer([]), 3000);
    } else answer(input.work.map({ style, sheet, atRules }[input.kind]));
};
