/* Makes, asks and frees style sheets that the C library keeps, for a run under valgrind: the exit status is 0 if each answer
   is as it must be, by the words of simplecss.h. */
#include <simplecss.h>
#include <stdio.h>
#include <stdlib.h>
#include <string.h>

#define COUNT(array) (sizeof(array) / sizeof *(array))

static int failures;
static void want(const char *what, size_t got, size_t wanted) {
    if (got != wanted) { printf("%s: %zu, not %zu\n", what, got, wanted); failures++; }
}

/* Makes a sheet from a copy that is overwritten and freed at once, so that a sheet that borrowed it would be seen. */
static uint32_t make(const char *text, simplecss_kept_sheet *out) {
    size_t length = strlen(text);
    uint8_t *copy = malloc(length + 1);
    memcpy(copy, text, length);
    uint32_t status = simplecss_sheet_new(copy, length, out);
    memset(copy, 'y', length);
    free(copy);
    return status;
}

static void want_numbers(simplecss_kept_sheet *sheet, size_t asked, size_t most, const size_t *due, size_t count) {
    size_t out[64], len = 99;
    memset(out, 0xA5, sizeof out);
    want("numbers", simplecss_sheet_numbers(sheet, asked, most, out, COUNT(out), &len), 0);
    want("how many", len, count);
    for (size_t i = 0; i < count; i++)
        want("number", out[i], due[i]);
    want("unwritten", out[count], SIZE_MAX / 255 * 0xA5);
}

static void want_status(simplecss_kept_sheet *sheet, size_t asked, size_t most, size_t room, uint32_t status, size_t length) {
    size_t out[64] = {99}, len = 99;
    want("status", simplecss_sheet_numbers(sheet, asked, most, out, room, &len), status);
    want("length", len, length);
    want("unwritten", out[0], 99);
}

static void want_text(simplecss_kept_sheet *sheet, size_t asked, const char *due) {
    uint8_t out[256];
    size_t len = 99;
    want(due, simplecss_sheet_text(sheet, asked, out, sizeof out, &len), 0);
    if (len != strlen(due) || memcmp(out, due, len)) { printf("%.*s, not %s\n", (int)len, (const char *)out, due); failures++; }
}

/* Of "a{b:c}". */
static const size_t statements[] = {3, 0, 6, 1, 0, 1, 2, 3, 0, 0, 0, 9, 10, 0, 1, 1, 0, 0, 1, 1, 1, 0, 0, 2, 3, 1, 2, 1, 4, 1, 0, 0};
static const size_t contents[] = {3, 0, 2, 0, 0, 1, 2, 0, 0, 0, 0, 2, 3, 1, 2, 1, 4, 1, 0, 0, 13, 5, 1, 0, 0, 0, 0, 0, 0, 0};

static void want_sheet(simplecss_kept_sheet *sheet) {
    want_status(sheet, SIMPLECSS_STATEMENTS, COUNT(statements) - 1, 64, 4, 0);
    want_status(sheet, SIMPLECSS_CONTENTS, COUNT(contents) - 1, 64, 4, 0);
    for (int again = 0; again < 2; again++) {
        want_status(sheet, SIMPLECSS_STATEMENTS, 99, COUNT(statements) - 1, 6, COUNT(statements));
        want_numbers(sheet, SIMPLECSS_STATEMENTS, COUNT(statements), statements, COUNT(statements));
        want_status(sheet, SIMPLECSS_CONTENTS, 99, 0, 6, COUNT(contents));
        want_numbers(sheet, SIMPLECSS_CONTENTS, COUNT(contents), contents, COUNT(contents));
        want_status(sheet, SIMPLECSS_STATEMENTS, COUNT(statements) - 1, 64, 4, 0);
        want_status(sheet, SIMPLECSS_CONTENTS, 0, 64, 4, 0);
        want_text(sheet, SIMPLECSS_SHORT, "a{b:c}");
        want_text(sheet, SIMPLECSS_LINES, "a {\n  b: c;\n}\n");
        want_text(sheet, SIMPLECSS_IMPORTS, "");
        want_status(sheet, 2, 99, 64, 1, 0);
    }
}

static void want_closed(const char *what, simplecss_kept_sheet *sheet) {
    uint8_t out[1] = {99};
    size_t len = 99;
    want(what, sheet->at == NULL, 1);
    want_status(sheet, SIMPLECSS_STATEMENTS, 99, 64, 8, 0);
    want("text", simplecss_sheet_text(sheet, SIMPLECSS_SHORT, out, 1, &len), 8);
    want("no length", len, 0);
    want("unwritten", out[0], 99);
}

int main(void) {
    simplecss_kept_sheet a = {0}, b = {0};
    uint8_t out[1] = {99};
    size_t len = 99;
    want("size", sizeof a, sizeof(void *));
    want_closed("closed", &a);
    want("new", make("a{b:c}", &a), 0);
    want_sheet(&a);
    want("no question", simplecss_sheet_text(&a, 3, out, 1, &len), 1);
    want("no length", len, 0);
    want("another", make("@import 'a' print;@import url(b);", &b), 0);
    want_text(&b, SIMPLECSS_IMPORTS, "0 18 1 1 0 0 0 0 5\naprint\n18 15 0 1 0 0 0 0 0\nb\n");
    want("nothing", make("", &b), 0);
    want_numbers(&b, SIMPLECSS_STATEMENTS, 0, NULL, 0);
    want_numbers(&b, SIMPLECSS_CONTENTS, 0, NULL, 0);
    want_text(&b, SIMPLECSS_LINES, "");
    want("not UTF-8", make("a{b:\xff}", &b), 5);
    want_closed("closed by a fault", &b);
    want_sheet(&a);
    want("over an open handle", make("d{e:f}", &a), 0);
    want_text(&a, SIMPLECSS_SHORT, "d{e:f}");
    for (int i = 0; i < 10000; i++) {
        want("made", make("a{b:c}", &b), 0);
        if (i % 2) want_status(&b, i % 3 ? SIMPLECSS_STATEMENTS : SIMPLECSS_CONTENTS, 99, 0, 6, i % 3 ? COUNT(statements) : COUNT(contents));
        simplecss_sheet_free(&b);
    }
    simplecss_sheet_free(&a);
    simplecss_sheet_free(&a);
    want_closed("closed by the caller", &a);
    printf("%d failures\n", failures);
    return failures != 0;
}
