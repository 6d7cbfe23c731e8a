/* Makes one call of the C library, for library.py: the word is the number of the call. Standard error gets `begin`
   before it and `end` after it, between which refuse.c counts requests for memory. Standard output gets the status, a
   newline and the answer; the exit status is 1 if the buffer or the length is not as the status says. */
#include <simplecss.h>
#include <stdio.h>
#include <stdlib.h>
#include <string.h>
#include <unistd.h>

#define TEXT(text) (const uint8_t *)(text), sizeof(text) - 1
#define SHEET TEXT(sheet), sheet_ends, 2, 2
#define TREE &tree
#define MOST SIMPLECSS_NO_LIMIT
#define OUT out, sizeof(out) - 1, &len
#define NUMBERS numbers, sizeof numbers / sizeof *numbers, &len

static const char sheet[] = "ul > li { color: red }.new { color: blue !important } @media x { } a:b { c: d }";
static const size_t sheet_ends[] = {22, sizeof(sheet) - 1};
static const size_t selector_ends[] = {2, 6};
static const simplecss_element elements[] = {{0, 0, 0, 0}, {1, 1, 0, 0}, {1, 1, 0, 0}};
static const size_t name_ends[] = {5};
static const size_t pair_ends[] = {3, 11, 14, 54};
static const simplecss_device device = SIMPLECSS_DESKTOP;
static const char strings[] = "ullicl\tssnewlititlea\nb";
static const size_t string_ends[] = {2, 4, 9, 12, 14, 19, 22};
static const simplecss_tree tree = {elements, 3, TEXT(strings), string_ends, 7, NULL, 0, 0, NULL, 0};
static const simplecss_namespaced_attribute attributes[] = {{1, 1}};
static const char spaced_strings[] = "ullicl\tssnewlititlea\nbkvn";
static const size_t spaced_ends[] = {2, 4, 9, 12, 14, 19, 22, 23, 24, 25};
static const size_t prefixes[] = {1};
static const simplecss_tree spaced = {elements, 3, TEXT(spaced_strings), spaced_ends, 10, attributes, 1, 0, prefixes, 1};
static const size_t group_ends[] = {5, 6};
static const size_t origins[] = {SIMPLECSS_USER, SIMPLECSS_AUTHOR};
static const size_t own_ends[] = {3, 6};
static const simplecss_own own = {TEXT("a:bc:d"), own_ends, 2};
static const size_t asked_ends[] = {1, 2};
static const size_t name_counts[] = {2};
static const size_t around[] = {0};
static const size_t depths[] = {0, 1};
static const simplecss_asked asked = {TEXT("ac"), asked_ends, 2, name_counts, 1};
static const simplecss_sheets sheets = {TEXT(sheet), sheet_ends, 2, origins, 2, TEXT("mediax"), group_ends, 2, around, 1, depths, 2, TEXT(""), NULL, 0};
static const char rules[] = "ul { > li { a: b } @layer x { &, li::before { c: d } } }";
static const size_t rules_ends[] = {sizeof(rules) - 1};
static const simplecss_sheets nested = {TEXT(rules), rules_ends, 1, origins, 1, TEXT("mediax"), group_ends, 2, around, 0, depths, 0, TEXT(""), NULL, 0};
static const char named[] = "@namespace n 'u'; n|a { b: c } [n|k] { d: e }";
static const size_t named_ends[] = {sizeof(named) - 1};
static const size_t url_ends[] = {1};
static const simplecss_sheets declared = {TEXT(named), named_ends, 1, origins, 1, TEXT("mediax"), group_ends, 2, around, 0, depths, 0, TEXT("u"), url_ends, 1};
static const size_t policy_ends[] = {2, 4, 9, 12, 16, 21, 22, 23, 28, 32, 37, 40, 45};
static const simplecss_policy policy = {TEXT(".mq-colorrgbfonthoverabcolornonecolor0,1print"), policy_ends, 13, 1, 1, 1, 1, 1, 1, 1, 1, 1, 0, 4096};
static uint8_t out[4096];
static size_t numbers[128];

/* Whether these bytes are as they were. */
static int is_unwritten(const void *bytes, size_t count) {
    const uint8_t *at = bytes;
    while (count > 0 && *at == 0xA5)
        at++, count--;
    return count == 0;
}

/* The status of a question to a list, or of why there is none: then the question finds no list. Lets the list go. */
static uint32_t let_go(uint32_t made, uint32_t asked, simplecss_kept_list *list) {
    if (made != SIMPLECSS_DONE && (asked != SIMPLECSS_CLOSED || list->at))
        exit(1);
    simplecss_list_free(list);
    return made != SIMPLECSS_DONE ? made : asked;
}

static uint32_t list_numbers(const uint8_t *text, size_t count, size_t grammar, size_t *to, size_t room, size_t *len) {
    simplecss_kept_list list = {0};
    uint32_t made = simplecss_list_new(text, count, grammar, &list);
    return let_go(made, simplecss_list_numbers(&list, to, room, len), &list);
}

static uint32_t list_text(const uint8_t *text, size_t count, size_t grammar, uint8_t *to, size_t room, size_t *len) {
    simplecss_kept_list list = {0};
    uint32_t made = simplecss_list_new(text, count, grammar, &list);
    return let_go(made, simplecss_list_text(&list, to, room, len), &list);
}

/* The status of a question to a sheet, or of why there is none: then the question finds no sheet. A second one answers as the
   first. Lets the sheet go. */
static uint32_t sheet_numbers(const uint8_t *text, size_t count, size_t what, size_t *to, size_t room, size_t *len) {
    simplecss_kept_sheet kept = {0};
    uint32_t made = simplecss_sheet_new(text, count, &kept);
    uint32_t asked = simplecss_sheet_numbers(&kept, what, MOST, to, room, len);
    size_t first = *len;
    if (asked == SIMPLECSS_DONE && simplecss_sheet_numbers(&kept, what, MOST, to, 0, len) == SIMPLECSS_TOO_SMALL && *len != first)
        exit(1);
    *len = first;
    if (made != SIMPLECSS_DONE && (asked != SIMPLECSS_CLOSED || kept.at))
        exit(1);
    simplecss_sheet_free(&kept);
    return made != SIMPLECSS_DONE ? made : asked;
}

static uint32_t sheet_text(const uint8_t *text, size_t count, size_t what, uint8_t *to, size_t room, size_t *len) {
    simplecss_kept_sheet kept = {0};
    uint32_t made = simplecss_sheet_new(text, count, &kept);
    uint32_t asked = simplecss_sheet_text(&kept, what, to, room, len);
    if (made != SIMPLECSS_DONE && (asked != SIMPLECSS_CLOSED || kept.at))
        exit(1);
    simplecss_sheet_free(&kept);
    return made != SIMPLECSS_DONE ? made : asked;
}

/* An edit that sets the attribute of a tag, and where its name and its value end. */
static const size_t page_edits[] = {SIMPLECSS_EDIT_SET, 0, 0};
static const size_t edit_ends[] = {5, 14}, inline_ends[] = {24};
static const size_t sheet_edits[] = {SIMPLECSS_EDIT_PRELUDE, 0, 1, SIMPLECSS_EDIT_CONTENTS, 2, 5};
static const size_t edited_ends[] = {4, 10};

/* The status of a question to a page, or of why there is none: then the question finds no page. Lets the page go. */
static uint32_t page_select(size_t grammar, const uint8_t *text, size_t count, size_t *to, size_t room, size_t *len) {
    simplecss_kept_page page = {0};
    simplecss_tree_fault fault = {0, 0};
    uint32_t made = simplecss_page_new(&spaced, grammar, &page, &fault);
    uint32_t asked = simplecss_page_select(&page, text, count, 2, 0, 3, MOST, to, room, len);
    if (made != SIMPLECSS_DONE && (asked != SIMPLECSS_CLOSED || page.at))
        exit(1);
    if (made == SIMPLECSS_DONE && !page.at)
        exit(1);
    simplecss_page_free(&page);
    return made != SIMPLECSS_DONE ? made : asked;
}

/* The same of a question to a query, of three elements. */
static uint32_t query(const simplecss_sheets *those, size_t grammar, const simplecss_tree *page, size_t what, size_t *to, size_t room,
                      size_t *len) {
    simplecss_kept_query kept = {0};
    simplecss_tree_fault fault = {0, 0};
    uint32_t made = simplecss_query_new(page, grammar, those, 9, &own, &kept, &fault);
    if ((made == SIMPLECSS_DONE) != (kept.at != NULL))
        exit(1);
    uint32_t answered = simplecss_query_numbers(&kept, what, &asked, 0, 3, MOST, to, room, len);
    if (made != SIMPLECSS_DONE && answered != SIMPLECSS_CLOSED)
        exit(1);
    simplecss_query_free(&kept);
    return made != SIMPLECSS_DONE ? made : answered;
}

/* The same of the texts of its rules' selectors. */
static uint32_t query_text(const simplecss_sheets *those, const simplecss_tree *page, uint8_t *to, size_t room, size_t *len) {
    simplecss_kept_query kept = {0};
    simplecss_tree_fault fault = {0, 0};
    uint32_t made = simplecss_query_new(page, SIMPLECSS_HTML, those, 9, &own, &kept, &fault);
    uint32_t answered = simplecss_query_text(&kept, MOST, to, room, len);
    if (made != SIMPLECSS_DONE && (answered != SIMPLECSS_CLOSED || kept.at))
        exit(1);
    simplecss_query_free(&kept);
    return made != SIMPLECSS_DONE ? made : answered;
}

int main(int count, char **words) {
    size_t len = 77;
    simplecss_tree_fault fault = {0, 0};
    int call = count == 2 ? atoi(words[1]) : -1;
    uint32_t status = 99;
    memset(out, 0xA5, sizeof out);
    memset(numbers, 0xA5, sizeof numbers);
    (void)!write(2, "begin", 5);
    switch (call) {
    case 0: status = simplecss_port(TEXT("a b > c.d[e='f']:hover"), sheet_ends, 0, 0, SIMPLECSS_PORT_SELECTED, TREE, MOST, OUT, &fault); break;
    case 1: status = list_numbers(TEXT("a b, c > d, e + f"), SIMPLECSS_PORT, NUMBERS); break;
    case 2: status = simplecss_refusal(TEXT("a b, c > > d"), SIMPLECSS_PORT, TREE, OUT, &fault); break;
    case 3: status = simplecss_port(SHEET, SIMPLECSS_PORT_SHEET, TREE, MOST, OUT, &fault); break;
    case 4: status = simplecss_port(SHEET, SIMPLECSS_PORT_RULES, TREE, MOST, OUT, &fault); break;
    case 5: status = simplecss_port(SHEET, SIMPLECSS_PORT_SKIPPED, TREE, MOST, OUT, &fault); break;
    case 6: status = simplecss_port(SHEET, SIMPLECSS_PORT_MATCHES, TREE, MOST, OUT, &fault); break;
    case 7: status = simplecss_port(TEXT("li, ul > .new"), sheet_ends, 0, 0, SIMPLECSS_PORT_SELECTED, TREE, MOST, OUT, &fault); break;
    case 8: status = query_text(&sheets, TREE, OUT); break;
    case 9: status = simplecss_port(SHEET, SIMPLECSS_PORT_STYLES, TREE, MOST, OUT, &fault); break;
    case 10: status = simplecss_version(OUT); break;
    case 11: status = sheet_numbers(TEXT("@media x { a, b:not(c), d::before { e: f; g } } h { } @i;"), SIMPLECSS_STATEMENTS, NUMBERS); break;
    case 12: status = simplecss_declarations(TEXT("a: b !important; c"), NUMBERS); break;
    case 13: status = simplecss_match_selectors(TEXT("li.new"), selector_ends, 2, SIMPLECSS_PORT, TREE, MOST, OUT, &fault); break;
    case 14: status = list_numbers(TEXT("a\\62 > c, d:not(e, f)::before"), SIMPLECSS_MODERN, NUMBERS); break;
    case 15: status = simplecss_refusal(TEXT("a, b:nth-child(2"), SIMPLECSS_MODERN, TREE, OUT, &fault); break;
    case 16: status = simplecss_match_selectors(TEXT("LI.new"), selector_ends, 2, SIMPLECSS_HTML, TREE, MOST, OUT, &fault); break;
    case 17: status = page_select(SIMPLECSS_HTML_QUIRKS, TEXT("LI:empty, :is(UL, a) > .NEW"), NUMBERS); break;
    case 18: status = simplecss_close(TEXT("f(g['h"), OUT); break;
    case 19: status = simplecss_media(TEXT("print, (2x <= resolution) and (hover)"), &device, OUT); break;
    case 20: status = simplecss_supports(TEXT("(color: a) and selector(a > b)"), TEXT("color"), name_ends, 1, OUT); break;
    case 21: status = simplecss_tokens(TEXT("a{b:1em}"), NUMBERS); break;
    case 22: status = simplecss_names(TEXT("li.new"), selector_ends, 2, NUMBERS); break;
    case 23: status = simplecss_spell(TEXT("1 a"), SIMPLECSS_IDENTIFIER, OUT); break;
    case 24: status = simplecss_spell(TEXT("a\n"), SIMPLECSS_QUOTED, OUT); break;
    case 25: status = simplecss_spell(TEXT("\\61 b"), SIMPLECSS_DECODED_NAME, OUT); break;
    case 26: status = query(&sheets, SIMPLECSS_HTML, TREE, SIMPLECSS_RULES, NUMBERS); break;
    case 27: status = query(&sheets, SIMPLECSS_MODERN, TREE, SIMPLECSS_WINNERS, NUMBERS); break;
    case 28: status = query(&sheets, SIMPLECSS_HTML, TREE, SIMPLECSS_WINNERS, NUMBERS); break;
    case 29: status = query(&nested, SIMPLECSS_HTML, TREE, SIMPLECSS_WINNERS, NUMBERS); break;
    case 30: status = query(&nested, SIMPLECSS_MODERN, TREE, SIMPLECSS_MATCHES, NUMBERS); break;
    case 31: status = query(&nested, SIMPLECSS_HTML, TREE, SIMPLECSS_MATCHES, NUMBERS); break;
    case 32: status = query_text(&nested, TREE, OUT); break;
    case 33: status = simplecss_values(TEXT("--avar(--b)--bsyntax:'*';inherits:true;initial-value:1"), pair_ends, 4, 1, 1, 99, MOST, OUT); break;
    case 34: status = simplecss_valid_value(TEXT("var(--\\61 , b)"), OUT); break;
    case 35: status = simplecss_property(TEXT("margin"), SIMPLECSS_LONGHANDS, OUT); break;
    case 36: status = simplecss_property(TEXT("margin-left"), SIMPLECSS_SHORTHANDS, OUT); break;
    case 37: status = simplecss_property(TEXT("color"), SIMPLECSS_INHERITED, OUT); break;
    case 38: status = query(&nested, SIMPLECSS_MODERN, TREE, SIMPLECSS_WINNERS_NAMED, NUMBERS); break;
    case 39: status = list_text(TEXT("a b, c > d, e + f"), SIMPLECSS_PORT, OUT); break;
    case 40: status = list_text(TEXT("a\\62 > c, d:not(e, f)::before"), SIMPLECSS_MODERN, OUT); break;
    case 41: status = sheet_text(TEXT("@import 'a' layer(b) supports(c:d) print;"), SIMPLECSS_IMPORTS, OUT); break;
    case 42: status = sheet_numbers(TEXT("a { b: c; @media x { d { e } } }"), SIMPLECSS_CONTENTS, NUMBERS); break;
    case 43: status = sheet_text(TEXT("a { b : c } @media x { d { e : f/**/g } }"), SIMPLECSS_LINES, OUT); break;
    case 44: status = page_select(SIMPLECSS_MODERN, TEXT("[n|k], n|a"), NUMBERS); break;
    case 45: status = query(&declared, SIMPLECSS_MODERN, &spaced, SIMPLECSS_MATCHES, NUMBERS); break;
    case 46: status = simplecss_refusal(TEXT("[n|k], m|a"), SIMPLECSS_MODERN, &spaced, OUT, &fault); break;
    case 47: status = simplecss_property(TEXT("margin-top"), SIMPLECSS_COUNTERPART, OUT); break;
    case 48: status = simplecss_lint(TEXT("@import 'a'; @media (widht: 1) { a, a { b: c; b: d; margin: 0 } } @keyframes k { form { top: 0 } }"), 0, OUT); break;
    case 49: status = page_select(SIMPLECSS_MODERN, TEXT("[n|k], ul > :scope"), NUMBERS); break;
    case 50: status = page_select(SIMPLECSS_HTML, TEXT("LI:nth-child(1 of .new), UL:has([n|k])"), NUMBERS); break;
    case 51: status = simplecss_clean(TEXT("a, b:hover { color: red; top: 0 } @media print { c { color: red } }"), &policy, SIMPLECSS_CLEAN_SHEET, OUT); break;
    case 52: status = simplecss_dropped(TEXT("color: red; top: 0; color: url(a)"), &policy, SIMPLECSS_CLEAN_STYLE, NUMBERS); break;
    case 53: status = simplecss_html_encoding(TEXT("<meta charset=koi8-r>"), TEXT("none"), OUT); break;
    case 55: status = query(&nested, SIMPLECSS_HTML, TREE, SIMPLECSS_EXPLAINED, NUMBERS); break;
    case 56: status = query(&nested, SIMPLECSS_MODERN, TREE, SIMPLECSS_RULES, NUMBERS); break;
    case 54: status = simplecss_html_edit(TEXT("<p class=a>b"), 0, page_edits, 3, TEXT("stylecolor:red"), edit_ends, 2, OUT, &fault); break;
    case 58: status = simplecss_html_edit(TEXT("<p class='a'>b</p>"), SIMPLECSS_HTML_XML, page_edits, 3, TEXT("stylecolor:red"), edit_ends, 2, OUT, &fault); break;
    case 59: status = simplecss_inline(TEXT("<style>b{top:0}</style><p class=a>b<b>c</b>"), TEXT(".a{left:0}p:hover{top:0}"), inline_ends, 1, 0, 10000, OUT); break;
    case 57: status = simplecss_edit(TEXT("a{b:c} @media x { d { e: f } }"), sheet_edits, 6, TEXT("d, ef{g:h}"), edited_ends, 2, OUT, &fault); break;
    case 60: status = simplecss_taken(TEXT("a { top: x; b { TOP: y } } @media c { d { left: e } }"), 0, OUT); break;
    default: break;
    }
    (void)!write(2, "end", 3);
    if (status != SIMPLECSS_DONE && len != 0)
        return 1;
    const size_t written = status == SIMPLECSS_DONE ? len : 0;
    const int counts = call == 1 || call == 14 || call == 17 || call == 44 || call == 11 || call == 12 || call == 21 || call == 22 || (call >= 26 && call <= 31) || call == 38 || call == 42 || call == 45 || call == 49 || call == 50 || call == 52 || call == 55 || call == 56;
    if (!is_unwritten(out + (counts ? 0 : written), sizeof out - (counts ? 0 : written)))
        return 1;
    if (!is_unwritten(numbers + (counts ? written : 0), sizeof numbers - (counts ? written : 0) * sizeof *numbers))
        return 1;
    printf("%u\n", (unsigned)status);
    if (!counts)
        fwrite(out, 1, written, stdout);
    for (size_t i = 0; counts && i < written; i++)
        printf("%zu ", numbers[i]);
    return 0;
}
