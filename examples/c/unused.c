/* An example: prints the selectors of a style sheet that match no element of a page.
 *
 *     clang -I include examples/c/unused.c out/libsimplecss.a -o unused
 *
 * Pseudo-elements and the conditions of group rules are taken as met, and so are states: each element is in all of
 * them, so that `:not(:hover)` matches none. Of several pages, a rule that matches on one is used.
 */
#include <ctype.h>
#include <simplecss.h>
#include <stdio.h>
#include <stdlib.h>
#include <string.h>

#define ROOM 4096
#define ALL (SIMPLECSS_HOVER | SIMPLECSS_ACTIVE | SIMPLECSS_FOCUS)

static const char sheet[] = "ul > li { top: 0 } ol li, li:hover { top: 0 }"
                            "@media print { .new::before, p { top: 0; & b { top: 0 } } }";

/* <ul><li class="new"></li></ul> */
static const simplecss_element elements[] = {{0, 0, ALL, 0}, {1, 1, ALL, 0}};
static const char strings[] = "ulliclassnew";
static const size_t ends[] = {2, 4, 9, 12};

/* The names and the preludes of group rules, one after another, and where each ends. */
static char groups[ROOM];
static size_t group_ends[ROOM];
static size_t groups_count;

static void add(size_t from, size_t length) {
    size_t end = groups_count == 0 ? 0 : group_ends[groups_count - 1];
    for (size_t at = from; at < from + length; at++) {
        groups[end++] = groups_count % 2 == 0 ? (char)tolower((unsigned char)sheet[at]) : sheet[at];
    }
    group_ends[groups_count++] = end;
}

/* Finds the group rules of the sheet. Returns a status. */
static uint32_t find_groups(void) {
    static size_t rows[ROOM];
    size_t len;
    simplecss_kept_sheet kept = {NULL};
    uint32_t status = simplecss_sheet_new((const uint8_t *)sheet, strlen(sheet), &kept);
    if (status == SIMPLECSS_DONE) {
        status = simplecss_sheet_numbers(&kept, SIMPLECSS_CONTENTS, ROOM, rows, ROOM, &len);
    }
    for (size_t at = 0; status == SIMPLECSS_DONE && at < len; at += 10) {
        if (rows[at] == SIMPLECSS_GROUP) {
            add(rows[at + 4], rows[at + 5]);
            add(rows[at + 6], rows[at + 7]);
        }
    }
    simplecss_sheet_free(&kept);
    return status;
}

/* Prints the selectors of the rules that are not among those that match. */
static void print_unused(const size_t *rules, size_t rules_len, const char *selectors, const size_t *matches, size_t matches_len) {
    static int is_used[ROOM];
    for (size_t at = 0; at < matches_len; at += 1 + matches[at]) {
        for (size_t rule = 1; rule <= matches[at]; rule++) {
            is_used[matches[at + rule]] = 1;
        }
    }
    for (size_t at = 0, rule = 0; at < rules_len; at += 9 + 6 * rules[at + 8], rule++) {
        if (!is_used[rule]) {
            printf("%.*s\n", (int)rules[at + 3], selectors);
        }
        selectors += rules[at + 3];
    }
}

int main(void) {
    static size_t rules[ROOM], matches[ROOM];
    static char selectors[ROOM];
    size_t sheet_ends[] = {strlen(sheet)}, rules_len, matches_len, len;
    simplecss_tree tree = {elements, 2, (const uint8_t *)strings, strlen(strings), ends, 4, NULL, 0, 0, NULL, 0};
    simplecss_tree_fault fault = {0, 0};
    simplecss_kept_query query = {NULL};
    simplecss_sheets sheets;
    simplecss_own own;
    simplecss_asked names;
    memset(&sheets, 0, sizeof sheets);
    memset(&own, 0, sizeof own);
    memset(&names, 0, sizeof names);
    uint32_t status = find_groups();
    sheets.texts = (const uint8_t *)sheet;
    sheets.texts_len = strlen(sheet);
    sheets.ends = sheet_ends;
    sheets.ends_count = 1;
    sheets.groups = (const uint8_t *)groups;
    sheets.groups_len = groups_count == 0 ? 0 : group_ends[groups_count - 1];
    sheets.group_ends = group_ends;
    sheets.group_ends_count = groups_count;
    if (status == SIMPLECSS_DONE) {
        status = simplecss_query_new(&tree, SIMPLECSS_HTML, &sheets, ROOM, &own, &query, &fault);
    }
    if (status == SIMPLECSS_DONE) {
        status = simplecss_query_numbers(&query, SIMPLECSS_RULES, &names, 0, 0, ROOM, rules, ROOM, &rules_len);
    }
    if (status == SIMPLECSS_DONE) {
        status = simplecss_query_numbers(&query, SIMPLECSS_MATCHES, &names, 0, 2, ROOM, matches, ROOM, &matches_len);
    }
    if (status == SIMPLECSS_DONE) {
        status = simplecss_query_text(&query, ROOM, (uint8_t *)selectors, ROOM, &len);
    }
    if (status == SIMPLECSS_DONE) {
        print_unused(rules, rules_len, selectors, matches, matches_len);
    }
    simplecss_query_free(&query);
    return status == SIMPLECSS_DONE ? 0 : 1;
}
