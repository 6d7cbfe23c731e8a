//! What the crate answers to rows of tests/cases/calls.json, for tests/checkout.py. Standard input has rows with the byte 0 after each; a
//! row is a question and its fields, with the byte 1 between them. A page in a field is `html` or nothing, and a line for each
//! element, a device is its numbers, and pairs are texts, each with the byte 2 after it. Standard output has the answers, with the
//! byte 0 after each.
use simplecss::modern::{closed_value, declarations, decode, Declaration, Document, Item, Options, Selector, Sheet, Text};
use simplecss::modern::clean::{clean_sheet, clean_style, comment, is_clean_sheet, mail, Cleaned};
use simplecss::modern::{takes_value, HtmlMode, NamespacedAttribute, Names, Prefix, NO_NAMES};
use simplecss::modern::{Contrast, Device, Display, Gamut, Medium, Pointer, Scripting, Update};
use simplecss::properties::{is_inherited, is_valid_value, longhands, registrations, resolve, shorthands, Property, LONGEST};
use simplecss::tree::Tree;
use std::io::{Read, Write};

/// The texts of a field.
fn texts(field: &str) -> impl Iterator<Item = &str> {
    field.split_terminator('\x02')
}

/// A name in lower case, unless it is of a custom property.
fn lower(name: &str) -> String {
    if name.starts_with("--") { name.to_string() } else { name.to_ascii_lowercase() }
}

fn shown(it: &Declaration) -> String {
    let important = if it.important { " !important" } else { "" };
    format!("{}: {}{important}", lower(it.name), closed_value(it.value).unwrap())
}

fn selector(text: &str) -> String {
    match Selector::parse_list(text) {
        Ok(list) => {
            let counts = list[0].specificity();
            format!("{} {},{},{}", list[0], counts.ids, counts.classes, counts.names)
        }
        Err(error) => error.to_string(),
    }
}

/// The elements of a page, and what a document is told of them: those that have a text, the number of the namespace of each, and
/// the attributes in namespaces.
#[derive(Default)]
struct Elements<'t> {
    tree: Tree<'t>,
    filled: Vec<usize>,
    spaces: Vec<usize>,
    spaced: Vec<Vec<NamespacedAttribute<'t>>>,
}

fn elements(page: &str) -> Elements<'_> {
    let (mut all, mut path) = (Elements::default(), Vec::new());
    for line in page.split('\n').skip(1) {
        let mut fields = texts(line);
        path.truncate(fields.next().unwrap().parse().unwrap());
        let has_text = fields.next() == Some("1");
        all.spaces.push(fields.next().unwrap().parse().unwrap());
        let index = all.tree.push(path.last().copied(), fields.next().unwrap()).unwrap();
        path.push(index);
        all.filled.extend(has_text.then_some(index));
        all.spaced.push(Vec::new());
        while let (Some(name), Some(value)) = (fields.next(), fields.next()) {
            match name.strip_prefix('\x04').and_then(|it| it.split_once('\x04')) {
                None => all.tree.set_attribute(name, value).unwrap(),
                Some((number, name)) => {
                    let namespace = number.parse().unwrap();
                    all.spaced[index].push(NamespacedAttribute { namespace, name, value });
                }
            }
        }
    }
    all
}

/// What is asked of the document of a page.
fn on_page(page: &str, ask: impl FnOnce(Document<'_, '_>) -> String) -> String {
    let all = elements(page);
    let mut document = Document::new(&all.tree);
    all.filled.into_iter().for_each(|it| document.set_text(it));
    document.set_namespaces(all.spaces);
    document.set_namespaced_attributes(all.spaced);
    if page.starts_with("html") {
        document.set_html();
    }
    ask(document)
}

/// The elements that selectors match, as an HTML document reads them.
fn any_case(page: &str, selectors: &str) -> String {
    let list = Selector::parse_list(selectors).unwrap();
    let read: Vec<Selector> = list.iter().map(|it| it.in_html(HtmlMode::NoQuirks)).collect();
    on_page(page, |mut it| it.select(&read, usize::MAX).unwrap().iter().map(usize::to_string).collect::<Vec<_>>().join(" "))
}

/// The elements that selectors match, with these prefixes and the numbers of their namespaces.
fn select(page: &str, spaces: &str, selectors: &str) -> String {
    let all: Vec<&str> = texts(spaces).collect();
    let prefixes: Vec<Prefix> = all.chunks(2).map(|it| Prefix { name: it[0], number: it[1].parse().unwrap() }).collect();
    let default_namespace = prefixes.iter().find(|it| it.name.is_empty()).map(|it| it.number);
    let names = Names { prefixes: &prefixes, default_namespace, ..NO_NAMES };
    let list = Selector::parse_list_in(selectors, &names).unwrap();
    let found = |mut it: Document<'_, '_>| it.select(&list, usize::MAX).unwrap();
    on_page(page, |it| found(it).iter().map(usize::to_string).collect::<Vec<_>>().join(" "))
}

fn device(field: &str) -> Device {
    let all: Vec<u32> = field.split(' ').map(|it| it.parse().unwrap()).collect();
    let one = |words: &[u32]| words.iter().map(|it| *it != 0).collect::<Vec<_>>();
    let is = one(&all);
    Device {
        width: all[0],
        height: all[1],
        resolution: all[2],
        medium: [Medium::Screen, Medium::Print, Medium::Speech][all[3] as usize],
        pointer: [Pointer::Missing, Pointer::Coarse, Pointer::Fine][all[4] as usize],
        hover: is[5],
        dark: is[6],
        reduced_motion: is[7],
        device_width: all[8],
        device_height: all[9],
        color: all[10],
        color_index: all[11],
        monochrome: all[12],
        gamut: [Gamut::Srgb, Gamut::P3, Gamut::Rec2020][all[13] as usize],
        high_range: is[14],
        grid: is[15],
        update: [Update::Never, Update::Slow, Update::Fast][all[16] as usize],
        scripting: [Scripting::Missing, Scripting::Initial, Scripting::Enabled][all[17] as usize],
        display: [Display::Browser, Display::Minimal, Display::Standalone][all[18] as usize],
        reduced_transparency: is[19],
        contrast: [Contrast::Usual, Contrast::More, Contrast::Less, Contrast::Custom][all[20] as usize],
        forced_colors: is[21],
        any_hover: is[22],
        any_coarse: is[23],
        any_fine: is[24],
    }
}

fn styles(page: &str, on: &str, text: &Text<'_>) -> String {
    let sheet = Sheet::parse(text, &Options { device: device(on), ..Options::default() }).unwrap();
    let size = page.split('\n').count() - 1;
    on_page(page, |mut document| {
        let mut styles = document.styles(&sheet, usize::MAX).unwrap();
        let won = |index| styles.winners(index, ()).iter().map(|it| shown(&it.declaration)).collect::<Vec<_>>().join("; ");
        (0..size).map(won).collect::<Vec<_>>().join("\n")
    })
}

fn all_declarations(text: &str) -> String {
    let all = declarations(text).filter_map(|part| match part.item {
        Item::Declaration(it) => Some(shown(&it)),
        _ => None,
    });
    all.collect::<Vec<_>>().join("; ")
}

fn properties(field: &str) -> Vec<Property<'_>> {
    let (mut all, mut found) = (texts(field), Vec::new());
    while let (Some(name), Some(text)) = (all.next(), all.next()) {
        found.push(Property { name, text });
    }
    found
}

/// The values, of which one that is none is the byte 3.
fn resolved(own: &str, inherited: &str, registered: &str) -> String {
    let (own, inherited, registered) = (properties(own), properties(inherited), properties(registered));
    let values = resolve(&registrations(&registered), &own, &inherited, LONGEST);
    values.into_iter().map(|it| it.unwrap_or("\x03".to_string()) + "\x02").collect()
}

fn cleaned(found: Cleaned) -> String {
    let reasons: Vec<_> = found.dropped.iter().map(|it| it.reason.word()).collect();
    format!("{}|{}", found.text, reasons.join(" "))
}

fn answer(fields: &[&str]) -> String {
    let known = Options { properties: &["color", "display"], ..Options::default() };
    match *fields {
        ["selector", text] => selector(text),
        ["select", page, selectors] => select(page, "", selectors),
        ["any_case", page, selectors] => any_case(page, selectors),
        ["takes", name, value] => takes_value(name, value).map_or("not known".to_string(), |it| it.to_string()),
        ["namespaces", page, spaces, selectors] => select(page, spaces, selectors),
        ["styles", page, on, sheet] => styles(page, on, &Text::sheet(sheet)),
        ["any_value", page, on, sheet] => styles(page, on, &Text::any_value(sheet)),
        ["alike", page, on, sheet, other]
            if styles(page, on, &Text::sheet(sheet)) == styles(page, on, &Text::sheet(other)) =>
        {
            "alike".to_string()
        }
        ["declarations", text] => all_declarations(text),
        ["name", text] => decode(text),
        ["media", queries, on] => Options { device: device(on), ..known }.holds("media", queries).to_string(),
        ["supports", condition] => known.holds("supports", condition).to_string(),
        ["longhands", name] => longhands(&lower(name)).collect::<Vec<_>>().join(" "),
        ["shorthands", name] => shorthands(&lower(name)).join(" "),
        ["inherited", name] => is_inherited(&lower(name)).to_string(),
        ["valid", value] => is_valid_value(value).to_string(),
        ["clean", scope, sheet] => cleaned(clean_sheet(mail(scope), sheet)),
        ["clean_style", "mail", text] => cleaned(clean_style(mail("").declarations, text)),
        ["clean_style", "comment", text] => cleaned(clean_style(comment("").declarations, text)),
        ["is_clean", scope, sheet] => is_clean_sheet(mail(scope), sheet).to_string(),
        ["resolve", own, inherited, registered] => resolved(own, inherited, registered),
        _ => format!("no answer to {fields:?}"),
    }
}

fn main() {
    let mut input = String::new();
    std::io::stdin().read_to_string(&mut input).unwrap();
    let mut out = std::io::stdout().lock();
    for row in input.split_terminator('\0') {
        let fields: Vec<&str> = row.split('\x01').collect();
        write!(out, "{}\0", answer(&fields)).unwrap();
    }
}
