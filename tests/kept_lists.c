/* Makes, asks and frees lists that the C library keeps, for a run under valgrind: the exit status is 0 if each answer
   is as it must be. Its counts are those of the commas outside of parentheses, strings and brackets; its texts
   are as CSSOM, "Serializing Selectors", has them. */
#include <simplecss.h>
#include <stdio.h>
#include <stdlib.h>
#include <string.h>

static int failures;
static void want(const char *what, size_t got, size_t wanted) {
    if (got != wanted) { printf("%s: %zu, not %zu\n", what, got, wanted); failures++; }
}
static uint32_t make(const char *text, size_t grammar, simplecss_kept_list *out) {
    /* from a copy that is overwritten and freed at once, so that a list that borrowed it would be seen */
    size_t len = strlen(text);
    char *copy = malloc(len + 1);
    memcpy(copy, text, len + 1);
    uint32_t status = simplecss_list_new((const uint8_t *)copy, len, grammar, out);
    memset(copy, 'x', len);
    free(copy);
    return status;
}
static void want_count(const char *what, simplecss_kept_list *list, size_t wanted) {
    size_t numbers[64], len = 99;
    want(what, simplecss_list_numbers(list, numbers, 64, &len), 0);
    want(what, len, 10 * wanted);
}
static void want_text(const char *what, simplecss_kept_list *list, const char *wanted) {
    uint8_t out[64];
    size_t len = 99;
    want(what, simplecss_list_text(list, out, 64, &len), 0);
    want(what, len, strlen(wanted));
    want(what, len == strlen(wanted) && memcmp(out, wanted, len) == 0, 1);
}
static void want_closed(const char *what, simplecss_kept_list *list) {
    size_t number = 99, len = 99;
    uint8_t byte = 99;
    want(what, simplecss_list_numbers(list, &number, 1, &len), 8);
    want(what, len, 0);
    want(what, number, 99);
    want(what, simplecss_list_text(list, &byte, 1, &len), 8);
    want(what, len, 0);
    want(what, byte, 99);
    want(what, list->at == NULL, 1);
}

int main(void) {
    simplecss_kept_list a = {0}, b = {0};
    size_t number = 99, len = 99;
    want("size", sizeof a, sizeof(void *));
    want_closed("closed", &a);
    want("new", make("a > b, .c:not(.d, #e)[f=\"g\"]::before, :is(h, i) ~ j", SIMPLECSS_HTML, &a), 0);
    want_count("three", &a, 3);
    want_text("printed", &a, "a > b.c:not(.d, #e)[f=\"g\"]::before:is(h, i) ~ j");
    want("too small", simplecss_list_numbers(&a, &number, 1, &len), 6);
    want("what it needs", len, 30);
    want("unwritten", number, 99);
    want_count("three again", &a, 3);
    want("one", make("\\61 bc", SIMPLECSS_MODERN, &b), 0);
    want_count("one selector", &b, 1);
    want_text("decoded", &b, "abc");
    want("refused", make("a >> b", SIMPLECSS_MODERN, &b), 1);
    want_closed("closed by it", &b);
    want("unsupported", make("a, b:host", SIMPLECSS_MODERN, &b), 1);
    want("no grammar", make("a", 4, &b), 1);
    want("not UTF-8", simplecss_list_new((const uint8_t *)"a\xff", 2, SIMPLECSS_MODERN, &b), 5);
    want("the port", make("a > b, c.d", SIMPLECSS_PORT, &b), 0);
    want_count("two of the port", &b, 2);
    want_text("printed by the port", &b, "a > bc[class~='d']");
    want("refused by the port", make("a:not(b)", SIMPLECSS_PORT, &b), 1);
    want_closed("closed by the port", &b);
    want("over an open handle", make("x, y", SIMPLECSS_MODERN, &a), 0);
    for (int i = 0; i < 1000; i++) want_count("again", &a, 2);
    for (int i = 0; i < 10000; i++) {
        want("made", make("a, b:nth-child(2n + 1 of .c), d", i % 2 ? SIMPLECSS_MODERN : SIMPLECSS_HTML_QUIRKS, &b), 0);
        want_count("asked", &b, 3);
        want_text("asked for its text", &b, "ab:nth-child(2n+1 of .c)d");
        simplecss_list_free(&b);
    }
    simplecss_list_free(&a);
    simplecss_list_free(&a);
    want_closed("after free", &a);
    simplecss_list_free(&b);
    printf("%d failures\n", failures);
    return failures != 0;
}
