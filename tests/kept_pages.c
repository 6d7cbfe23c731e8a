/* Makes, asks and frees pages that the C library keeps, for a run under valgrind: the exit status is 0 if each answer
   is as it must be, by the words of Selectors 4 on the tree of this page:

     1 html > 2 body > 3 div#a > 4 p.x, 5 p
                       6 div#b > 7 p.x > 8 span, in a namespace with the prefix s

   The element 5 is in the state `target`, and 6 is one that SIMPLECSS_SCOPE names, which says nothing to a page. */
#include <simplecss.h>
#include <stdio.h>
#include <stdlib.h>
#include <string.h>

#define ALL SIZE_MAX
#define COUNT(array) (sizeof(array) / sizeof *(array))

static int failures;
static void want(const char *what, size_t got, size_t wanted) {
    if (got != wanted) { printf("%s: %zu, not %zu\n", what, got, wanted); failures++; }
}

static const simplecss_element elements[] = {
    {0, 0, 0, 0}, {1, 0, 0, 0}, {2, 1, 0, 0}, {3, 1, 0, 0},
    {3, 0, SIMPLECSS_NAMED, 0}, {2, 1, SIMPLECSS_SCOPE, 0}, {3, 1, 0, 0}, {4, 0, 0, 7},
};
static const char *const names[] = {"html", "body", "div", "id", "a", "p", "class", "x", "p", "div", "id", "b",
                                    "p", "class", "x", "span", "target", "s"};
static const size_t prefixes[] = {7};

/* Makes a page from copies that are overwritten and freed at once, so that a page that borrowed them would be seen. */
static uint32_t make(size_t grammar, size_t depth, simplecss_kept_page *out, simplecss_tree_fault *fault) {
    simplecss_element *own = malloc(sizeof elements);
    char *strings = malloc(128);
    size_t *ends = malloc(sizeof(size_t) * COUNT(names)), *numbers = malloc(sizeof prefixes), len = 0;
    memcpy(own, elements, sizeof elements);
    memcpy(numbers, prefixes, sizeof prefixes);
    own[7].depth = depth;
    for (size_t i = 0; i < COUNT(names); i++) {
        memcpy(strings + len, names[i], strlen(names[i]));
        ends[i] = len += strlen(names[i]);
    }
    simplecss_tree tree = {own, COUNT(elements), (const uint8_t *)strings, len, ends, COUNT(names), NULL, 0, 1, numbers, 1};
    uint32_t status = simplecss_page_new(&tree, grammar, out, fault);
    memset(own, 0xA5, sizeof elements), memset(strings, 'y', 128), memset(ends, 0xA5, sizeof(size_t) * COUNT(names));
    memset(numbers, 0xA5, sizeof prefixes);
    free(own), free(strings), free(ends), free(numbers);
    return status;
}

static uint32_t ask(simplecss_kept_page *page, const char *selectors, size_t scope, size_t from, size_t to, size_t most,
                    size_t *out, size_t *len) {
    size_t length = strlen(selectors);
    uint8_t *copy = malloc(length + 1);
    memcpy(copy, selectors, length);
    uint32_t status = simplecss_page_select(page, copy, length, scope, from, to, most, out, 8, len);
    memset(copy, 'y', length);
    free(copy);
    return status;
}

/* The numbers of a question, with spaces between them. */
static void want_numbers(simplecss_kept_page *page, const char *selectors, size_t scope, size_t from, size_t to,
                         const char *wanted) {
    size_t out[8] = {99, 99, 99, 99, 99, 99, 99, 99}, len = 99, at = 0;
    char got[64] = "";
    want(selectors, ask(page, selectors, scope, from, to, 99, out, &len), 0);
    for (size_t i = 0; i < len && i < 8; i++)
        at += (size_t)sprintf(got + at, i ? " %zu" : "%zu", out[i]);
    for (size_t i = len; i < 8; i++)
        want("unwritten", out[i], 99);
    if (strcmp(got, wanted)) { printf("%s from %zu to %zu: %s, not %s\n", selectors, from, to, got, wanted); failures++; }
}

static void want_status(simplecss_kept_page *page, const char *selectors, size_t from, size_t to, size_t most,
                        uint32_t status) {
    size_t out[8] = {99}, len = 99;
    want(selectors, ask(page, selectors, 0, from, to, most, out, &len), status);
    want("no length", len, 0);
    want("unwritten", out[0], 99);
}

static void want_page(simplecss_kept_page *page, const char *p) {
    want_numbers(page, p, 0, 0, ALL, "4 5 7");
    want_numbers(page, p, 0, 3, 5, "4 5");
    want_numbers(page, p, 0, 3, 4, "4");
    want_numbers(page, p, 0, 4, 6, "5");
    want_numbers(page, p, 0, 6, 8, "7");
    want_numbers(page, p, 0, 7, ALL, "");
    want_numbers(page, p, 0, 8, ALL, "");
    want_numbers(page, p, 0, ALL, ALL, "");
    want_numbers(page, p, 0, 5, 4, "");
    want_numbers(page, ":scope > p", 3, 0, ALL, "4 5");
    want_numbers(page, ":scope > p", 3, 4, 7, "5");
    want_numbers(page, ":scope > p", 6, 0, ALL, "7");
    want_numbers(page, ":scope > p, body > :scope", 6, 3, 7, "6 7");
    want_numbers(page, ":scope", 0, 0, ALL, "1");
    want_numbers(page, ":scope", 8, 0, ALL, "8");
    want_numbers(page, ":scope", 9, 0, ALL, "");
    want_numbers(page, ":scope > body", 0, 0, ALL, "2");
    want_numbers(page, "& > p", 3, 0, ALL, "4 5");
    want_numbers(page, "div:has(span)", 0, 0, ALL, "6");
    want_numbers(page, "div:has(> :scope)", 5, 0, ALL, "3");
    want_numbers(page, ":nth-child(1 of .x)", 0, 3, ALL, "4 7");
    want_numbers(page, "p:not(.x), #b", 0, 0, ALL, "5 6");
    want_numbers(page, "div + div span, p:last-child", 0, 0, ALL, "5 7 8");
    want_numbers(page, ":target", 0, 0, ALL, "5");
    want_numbers(page, "s|span, s|p", 0, 0, ALL, "8");
    want_numbers(page, "p::before", 0, 0, ALL, "");
    want_status(page, p, 0, ALL, 2, 4);
    want_status(page, p, 0, 4, 0, 4);
    want_numbers(page, "b", 0, 0, ALL, "");
    want_status(page, "div:has(span)", 0, 1, 15, 4);
    want_status(page, "p >", 0, ALL, 99, 1);
    want_status(page, "t|p", 0, ALL, 99, 1);
    want_status(page, ":own", 0, ALL, 99, 1);
    want_status(page, "p\xff", 0, ALL, 99, 5);
}

static void want_closed(const char *what, simplecss_kept_page *page) {
    want(what, page->at == NULL, 1);
    want_status(page, "p", 0, ALL, 99, 8);
}

int main(void) {
    simplecss_kept_page a = {0}, b = {0};
    simplecss_tree_fault fault = {77, 88};
    size_t out[3] = {99, 99, 99}, len = 99;
    want("size", sizeof a, sizeof(void *));
    want_closed("closed", &a);
    want("new", make(SIMPLECSS_MODERN, 4, &a, &fault), 0);
    want("no fault", fault.fault, 77);
    want_page(&a, "p");
    want_numbers(&a, "P", 0, 0, ALL, "");
    want("too small", simplecss_page_select(&a, (const uint8_t *)"p", 1, 0, 0, ALL, 99, out, 2, &len), 6);
    want("what it needs", len, 3);
    want("unwritten", out[0], 99);
    want("room", simplecss_page_select(&a, (const uint8_t *)"p", 1, 0, 0, ALL, 3, out, 3, &len), 0);
    want("HTML", make(SIMPLECSS_HTML, 4, &b, &fault), 0);
    want_page(&b, "P");
    want_numbers(&b, ".X", 0, 0, ALL, "");
    want("quirks", make(SIMPLECSS_HTML_QUIRKS, 4, &b, &fault), 0);
    want_page(&b, "P");
    want_numbers(&b, ".X", 0, 0, ALL, "4 7");
    want("the port", make(SIMPLECSS_PORT, 4, &b, &fault), 1);
    want_closed("closed by the port", &b);
    want("no grammar", make(4, 4, &b, &fault), 1);
    want("no fault", fault.fault, 77);
    want("new again", make(SIMPLECSS_MODERN, 4, &b, &fault), 0);
    want("a fault", make(SIMPLECSS_MODERN, 5, &b, &fault), 2);
    want("its kind", fault.fault, SIMPLECSS_BAD_DEPTH);
    want("its element", fault.element, 8);
    want_closed("closed by a fault", &b);
    for (int i = 0; i < 1000; i++) want_numbers(&a, i % 2 ? ":scope > p" : "div:has(p + p)", 3, 2, 5, i % 2 ? "4 5" : "3");
    want("over an open handle", make(SIMPLECSS_HTML, 4, &a, &fault), 0);
    for (int i = 0; i < 10000; i++) {
        want("made", make(i % 3 ? SIMPLECSS_MODERN : SIMPLECSS_HTML_QUIRKS, 4, &b, &fault), 0);
        want_numbers(&b, "p:has(span), :nth-last-child(1 of p)", 0, 4, 7, "5 7");
        simplecss_page_free(&b);
    }
    simplecss_page_free(&a);
    simplecss_page_free(&a);
    want_closed("after free", &a);
    simplecss_page_free(&b);
    printf("%d failures\n", failures);
    return failures != 0;
}
