/* Makes, asks and frees queries that the C library keeps, for a run under valgrind: the exit status is 0 if each answer
   is as it must be, by the words of CSS Cascading 5 and Selectors 4 on the tree of this page:

     0 html > 1 body > 2 div#a > 3 p.x, 4 p
                       5 div#b > 6 p.x > 7 span

   The rules are, in the order of the cascade: 0 `p` in a layer, 1 `p`, 2 `div:has(span)`, 3 `.x`, 4 `:scope`, 5 `#a p`.
   The element 5 is one that SIMPLECSS_SCOPE names, which says nothing to a query. */
#include <simplecss.h>
#include <stdio.h>
#include <stdlib.h>
#include <string.h>

#define ALL SIZE_MAX
#define COUNT(array) (sizeof(array) / sizeof *(array))
#define ROOM 64

static int failures;
static void want(const char *what, size_t got, size_t wanted) {
    if (got != wanted) { printf("%s: %zu, not %zu\n", what, got, wanted); failures++; }
}

static const simplecss_element elements[] = {
    {0, 0, 0, 0}, {1, 0, 0, 0}, {2, 1, 0, 0}, {3, 1, 0, 0}, {3, 0, 0, 0}, {2, 1, SIMPLECSS_SCOPE, 0}, {3, 1, 0, 0}, {4, 0, 0, 0},
};
static const char *const names[] = {"html", "body", "div", "id", "a", "p", "class", "x", "p", "div", "id", "b",
                                    "p", "class", "x", "span"};
static const char *const sheet = "p{a:1;b:2}.x{a:3}div:has(span){c:4}@layer l{p{d:5;a:6!important}}#a p{b:7}:scope{e:8}";
static const char *const own[] = {"", "", "", "", "", "", "a:9", "d:0"};

/* Text after text in one buffer of its own, and where each ends. */
static uint8_t *joined(const char *const *texts, size_t count, size_t *ends) {
    uint8_t *bytes = malloc(256);
    size_t len = 0;
    for (size_t i = 0; i < count; i++) {
        memcpy(bytes + len, texts[i], strlen(texts[i]));
        ends[i] = len += strlen(texts[i]);
    }
    return bytes;
}

/* Makes a query from copies that are overwritten and freed at once, so that a query that borrowed them would be seen. */
static uint32_t make(size_t grammar, size_t depth, size_t limit, simplecss_kept_query *out, simplecss_tree_fault *fault) {
    simplecss_element *rows = malloc(sizeof elements);
    size_t *ends = malloc(sizeof(size_t) * COUNT(names)), *sheet_ends = malloc(sizeof(size_t)), *own_ends = malloc(sizeof(size_t) * COUNT(own));
    uint8_t *strings = joined(names, COUNT(names), ends), *text = joined(&sheet, 1, sheet_ends), *texts = joined(own, COUNT(own), own_ends);
    memcpy(rows, elements, sizeof elements);
    rows[7].depth = depth;
    simplecss_tree tree = {rows, COUNT(elements), strings, ends[COUNT(names) - 1], ends, COUNT(names), NULL, 0, 0, NULL, 0};
    simplecss_sheets sheets = {text, sheet_ends[0], sheet_ends, 1, NULL, 0, NULL, 0, NULL, 0, NULL, 0, NULL, 0, NULL, 0, NULL, 0};
    simplecss_own with = {texts, own_ends[COUNT(own) - 1], own_ends, COUNT(own)};
    uint32_t status = simplecss_query_new(&tree, grammar, &sheets, limit, &with, out, fault);
    memset(rows, 0xA5, sizeof elements), memset(strings, 'y', 256), memset(text, 'y', 256), memset(texts, 'y', 256);
    memset(ends, 0xA5, sizeof(size_t) * COUNT(names)), memset(sheet_ends, 0xA5, sizeof(size_t));
    memset(own_ends, 0xA5, sizeof(size_t) * COUNT(own));
    free(rows), free(ends), free(sheet_ends), free(own_ends), free(strings), free(text), free(texts);
    return status;
}

static const size_t counts[] = {1, 2}, name_ends[] = {1, 2, 3};
static const simplecss_asked nothing = {NULL, 0, NULL, 0, NULL, 0}, asked = {(const uint8_t *)"bcd", 3, name_ends, 3, counts, 2};

static uint32_t ask(simplecss_kept_query *query, size_t what, size_t from, size_t to, size_t most, size_t *out, size_t *len) {
    return simplecss_query_numbers(query, what, what == SIMPLECSS_WINNERS_NAMED || what == SIMPLECSS_EXPLAINED ? &asked : &nothing, from, to, most, out, ROOM, len);
}

/* The numbers of a question, with spaces between them. */
static void want_numbers(simplecss_kept_query *query, size_t what, size_t from, size_t to, const char *wanted) {
    size_t out[ROOM], len = 99, at = 0;
    char got[256] = "";
    for (size_t i = 0; i < ROOM; i++) out[i] = 99;
    want(wanted, ask(query, what, from, to, 99, out, &len), 0);
    for (size_t i = 0; i < len && i < ROOM; i++) at += (size_t)sprintf(got + at, i ? " %zu" : "%zu", out[i]);
    for (size_t i = len; i < ROOM; i++) want("unwritten", out[i], 99);
    if (strcmp(got, wanted)) { printf("%zu from %zu to %zu: %s, not %s\n", what, from, to, got, wanted); failures++; }
}

static void want_status(simplecss_kept_query *query, size_t what, size_t from, size_t to, size_t most, uint32_t status) {
    size_t out[ROOM] = {99}, len = 99;
    want("status", ask(query, what, from, to, most, out, &len), status);
    want("no length", len, 0);
    want("unwritten", out[0], 99);
}

static void want_query(simplecss_kept_query *query) {
    want_numbers(query, SIMPLECSS_MATCHES, 0, ALL, "1 4 0 0 4 0 1 3 5 3 0 1 5 1 2 3 0 1 3 0");
    want_numbers(query, SIMPLECSS_MATCHES, 3, 5, "4 0 1 3 5 3 0 1 5");
    want_numbers(query, SIMPLECSS_MATCHES, 5, 6, "1 2");
    want_numbers(query, SIMPLECSS_MATCHES, 7, ALL, "0");
    want_numbers(query, SIMPLECSS_MATCHES, 8, ALL, "");
    want_numbers(query, SIMPLECSS_MATCHES, ALL, ALL, "");
    want_numbers(query, SIMPLECSS_MATCHES, 5, 4, "");
    /* The element 3: `d:0` is a hint, which the layer's `d:5` beats, and `a:6` is important. */
    want_numbers(query, SIMPLECSS_WINNERS, 3, 4, "3 0 0 5 0 0 1");
    want_numbers(query, SIMPLECSS_WINNERS, 0, 3, "1 4 0 0 0");
    want_numbers(query, SIMPLECSS_WINNERS, 5, 6, "1 2 0");
    want_numbers(query, SIMPLECSS_WINNERS, 6, ALL, "3 0 0 1 1 0 1 0");
    want_numbers(query, SIMPLECSS_WINNERS_NAMED, 3, 4, "5 0 0 0");
    want_numbers(query, SIMPLECSS_WINNERS_NAMED, 4, 7, "5 0 0 0 8 0 2 0 1 1 0 0");
    /* Of the names `b`, `c` and `d`: by specificity, by the layer, and by the origin of a hint. */
    want_numbers(query, SIMPLECSS_EXPLAINED, 3, 4, "4 5 0 0 1 1 4 0 0 3 7 0 1");
    want_numbers(query, SIMPLECSS_EXPLAINED, 4, 6, "3 5 0 0 1 1 4 0 0 3 1 2 0 0");
    want_status(query, 5, 0, ALL, 99, 1);
    want_status(query, ALL, 0, ALL, 99, 1);
    /* Each selector of a list on each of eight elements. */
    want_status(query, SIMPLECSS_MATCHES, 0, 1, 15, 4);
    want_status(query, SIMPLECSS_MATCHES, 0, ALL, 19, 4);
}

static void want_closed(const char *what, simplecss_kept_query *query) {
    want(what, query->at == NULL, 1);
    want_status(query, SIMPLECSS_WINNERS, 0, ALL, 99, 8);
    want_status(query, SIMPLECSS_RULES, 0, ALL, 99, 8);
}

int main(void) {
    simplecss_kept_query a = {0}, b = {0};
    simplecss_tree_fault fault = {77, 88};
    size_t out[2] = {99, 99}, len = 99;
    want("size", sizeof a, sizeof(void *));
    want_closed("closed", &a);
    want("new", make(SIMPLECSS_MODERN, 4, 99, &a, &fault), 0);
    want("no fault", fault.fault, 77);
    want_query(&a);
    want("too small", simplecss_query_numbers(&a, SIMPLECSS_MATCHES, &nothing, 5, 7, 99, out, 2, &len), 6);
    want("what it needs", len, 6);
    want("unwritten", out[0], 99);
    want("HTML", make(SIMPLECSS_HTML, 4, 99, &b, &fault), 0);
    want_query(&b);
    want("the port", make(SIMPLECSS_PORT, 4, 99, &b, &fault), 1);
    want_closed("closed by the port", &b);
    want("no grammar", make(4, 4, 99, &b, &fault), 1);
    want("limit", make(SIMPLECSS_MODERN, 4, 7, &b, &fault), 4);
    want_closed("closed by a limit", &b);
    want("within it", make(SIMPLECSS_MODERN, 4, 8, &b, &fault), 0);
    want("a fault", make(SIMPLECSS_MODERN, 5, 99, &b, &fault), 2);
    want("its kind", fault.fault, SIMPLECSS_BAD_DEPTH);
    want("its element", fault.element, 8);
    want_closed("closed by a fault", &b);
    for (int i = 0; i < 1000; i++) want_numbers(&a, SIMPLECSS_MATCHES, i % 2 ? 5 : 7, i % 2 ? 6 : 8, i % 2 ? "1 2" : "0");
    want("over an open handle", make(SIMPLECSS_HTML, 4, 99, &a, &fault), 0);
    for (int i = 0; i < 10000; i++) {
        want("made", make(i % 3 ? SIMPLECSS_MODERN : SIMPLECSS_HTML_QUIRKS, 4, 99, &b, &fault), 0);
        want_numbers(&b, SIMPLECSS_WINNERS, 3, 4, "3 0 0 5 0 0 1");
        simplecss_query_free(&b);
    }
    simplecss_query_free(&a);
    simplecss_query_free(&a);
    want_closed("after free", &a);
    simplecss_query_free(&b);
    printf("%d failures\n", failures);
    return failures != 0;
}
