/* Answers of the C library, for tests/release.py and tests/checkout.py: to each text of standard input, which is a length of
 * 8 bytes and the bytes, the answer of each call, with its length first. `page.h` has the tree. */
#include <inttypes.h>
#include <stdio.h>
#include <string.h>

#include "page.h"
#include "simplecss.h"

#define ROOM (1 << 20)
#define MOST SIMPLECSS_NO_LIMIT
#define OUT out, sizeof out, &len
#define NUMBERS numbers, sizeof numbers / sizeof *numbers, &len
#define SHEET text, end, &end, 1

/* A scope, two properties, a function, a property with strings, a pseudo-class, a url, and a word of media queries. */
static const size_t policy_ends[] = {2, 2, 7, 8, 11, 16, 21, 22, 23, 28};
static const simplecss_policy policy = {(const uint8_t *)".xcolorxrgbcolorhoverabprint", 28, policy_ends, 10, 2, 1, 1, 1, 1, 0, 0, 0, 1, 0, MOST};
static uint8_t text[ROOM], out[ROOM];
static size_t numbers[ROOM / sizeof(size_t)], len;
static simplecss_tree_fault fault;

/* Writes the answer of a call, or nothing where it refuses a text. */
static void put(uint32_t status) {
    uint64_t length = status == SIMPLECSS_DONE ? len : 0;
    fwrite(&length, 8, 1, stdout);
    fwrite(out, 1, length, stdout);
}

/* The same of one that writes numbers. */
static void put_numbers(uint32_t status) {
    uint64_t length = status == SIMPLECSS_DONE ? len * sizeof *numbers : 0;
    fwrite(&length, 8, 1, stdout);
    fwrite(numbers, 1, length, stdout);
}

/* Makes a list, asks for its numbers and its printed texts, and lets it go. */
static void put_list(size_t end, size_t grammar) {
    simplecss_kept_list list = {0};
    simplecss_list_new(text, end, grammar, &list);
    put_numbers(simplecss_list_numbers(&list, NUMBERS));
    put(simplecss_list_text(&list, OUT));
    simplecss_list_free(&list);
}

/* What is asked of the text by the grammar of the port. */
static void put_port(size_t end, size_t asked) {
    put(simplecss_port(SHEET, MOST, asked, &TREE, MOST, OUT, &fault));
}

int main(void) {
    simplecss_kept_page page = {0};
    simplecss_kept_sheet sheet = {0};
    simplecss_page_new(&TREE, SIMPLECSS_MODERN, &page, &fault);
    for (uint64_t length; fread(&length, 8, 1, stdin) == 1;) {
        size_t end = fread(text, 1, length, stdin);
        put_port(end, SIMPLECSS_PORT_SHEET);
        put_port(end, SIMPLECSS_PORT_SKIPPED);
        put_list(end, SIMPLECSS_PORT);
        put_port(end, SIMPLECSS_PORT_RULES);
        put_port(end, SIMPLECSS_PORT_MATCHES);
        put_port(end, SIMPLECSS_PORT_STYLES);
        put_port(end, SIMPLECSS_PORT_SELECTED);
        simplecss_sheet_new(text, end, &sheet);
        put_numbers(simplecss_sheet_numbers(&sheet, SIMPLECSS_STATEMENTS, MOST, NUMBERS));
        put_numbers(simplecss_declarations(text, end, NUMBERS));
        put(simplecss_sheet_text(&sheet, SIMPLECSS_IMPORTS, OUT));
        put_numbers(simplecss_sheet_numbers(&sheet, SIMPLECSS_CONTENTS, MOST, NUMBERS));
        put(simplecss_lint(text, end, SIMPLECSS_LINT_ALL, OUT));
        put(simplecss_taken(text, end, 0, OUT));
        put(simplecss_taken(text, end, SIMPLECSS_TAKEN_STYLE | SIMPLECSS_TAKEN_QUIRKS, OUT));
        put(simplecss_clean(text, end, &policy, SIMPLECSS_CLEAN_SHEET, OUT));
        put(simplecss_clean(text, end, &policy, SIMPLECSS_CLEAN_STYLE, OUT));
        put_numbers(simplecss_dropped(text, end, &policy, SIMPLECSS_CLEAN_SHEET, NUMBERS));
        put(simplecss_html_encoding(text, end, text, end, OUT));
        put(simplecss_close(text, end, OUT));
        put(simplecss_sheet_text(&sheet, SIMPLECSS_SHORT, OUT));
        put(simplecss_sheet_text(&sheet, SIMPLECSS_LINES, OUT));
        put(simplecss_spell(text, end, SIMPLECSS_IDENTIFIER, OUT));
        put(simplecss_spell(text, end, SIMPLECSS_QUOTED, OUT));
        put(simplecss_spell(text, end, SIMPLECSS_DECODED_STRING, OUT));
        put_list(end, SIMPLECSS_MODERN);
        put(simplecss_refusal(text, end, SIMPLECSS_MODERN, &TREE, OUT, &fault));
        put_numbers(simplecss_page_select(&page, text, end, 0, 0, SIZE_MAX, MOST, NUMBERS));
        put(simplecss_match_selectors(SHEET, SIMPLECSS_MODERN, &TREE, MOST, OUT, &fault));
    }
    simplecss_sheet_free(&sheet);
    simplecss_page_free(&page);
    return 0;
}
