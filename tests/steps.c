/* Makes one call of the C library on a tree of many elements, for steps.py: the words are the call, the shape of the
   tree, how many elements it has, and the selector or the style sheet. The exit status is that of the call. */
#include <simplecss.h>
#include <stdio.h>
#include <stdlib.h>
#include <string.h>

#define TEXT(text) (const uint8_t *)(text), strlen(text)
#define MOST SIMPLECSS_NO_LIMIT

/* The longest name of an element, of two letters and a number. */
enum { NAME = 24 };

static size_t depth_of(const char *shape, size_t index) {
    if (!strcmp(shape, "chain"))
        return index;
    return index > 0;
}

/* A tree whose first element is `top`. In a chain each further element is in the one before, else all are in the first;
   of `names` each has a name of its own, else they are `a` and `b` by turns. */
static simplecss_tree tree_of(const char *shape, size_t count) {
    simplecss_element *elements = calloc(count, sizeof *elements);
    char *strings = malloc(count * NAME);
    size_t *ends = malloc(count * sizeof *ends), length = 0;
    simplecss_tree tree = {elements, count, NULL, 0, ends, count, NULL, 0, 0, NULL, 0};
    for (size_t i = 0; i < count; i++) {
        elements[i].depth = depth_of(shape, i);
        if (i == 0)
            length += (size_t)sprintf(strings, "top");
        else if (!strcmp(shape, "names"))
            length += (size_t)sprintf(strings + length, "n%zu", i);
        else
            strings[length++] = i % 2 ? 'a' : 'b';
        ends[i] = length;
    }
    tree.strings = (const uint8_t *)strings;
    tree.strings_len = length;
    return tree;
}

int main(int count, char **words) {
    if (count != 5)
        return 100;
    simplecss_tree tree = tree_of(words[2], strtoul(words[3], NULL, 10));
    simplecss_tree_fault fault;
    size_t len = 0, end = strlen(words[4]), room = 64 * tree.elements_count + 4 * end;
    size_t *numbers = malloc(room * sizeof *numbers);
    simplecss_sheets sheets = {0};
    simplecss_own own = {0};
    sheets.texts = (const uint8_t *)words[4];
    sheets.texts_len = end;
    sheets.ends = &end;
    sheets.ends_count = 1;
    if (!strcmp(words[1], "select")) {
        simplecss_kept_page page = {0};
        uint32_t made = simplecss_page_new(&tree, SIMPLECSS_HTML, &page, &fault);
        if (made == SIMPLECSS_DONE)
            made = simplecss_page_select(&page, TEXT(words[4]), 0, 0, MOST, MOST, numbers, room, &len);
        simplecss_page_free(&page);
        return (int)made;
    }
    size_t asked = !strcmp(words[1], "matches") ? SIMPLECSS_MATCHES : SIMPLECSS_WINNERS;
    if (asked == SIMPLECSS_WINNERS && strcmp(words[1], "winners"))
        return 100;
    simplecss_kept_query query = {0};
    simplecss_asked names = {0};
    uint32_t status = simplecss_query_new(&tree, SIMPLECSS_HTML, &sheets, MOST, &own, &query, &fault);
    if (status == SIMPLECSS_DONE)
        status = simplecss_query_numbers(&query, asked, &names, 0, MOST, MOST, numbers, room, &len);
    simplecss_query_free(&query);
    return (int)status;
}
