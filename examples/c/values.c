/* An example: prints what wins on an element, without the declarations whose values no browser takes.
 *
 *     clang -I include examples/c/values.c out/libsimplecss.a -o values
 *
 * simplecss_taken writes spaces in their place, and a query is made of that. So offsets are into both texts. The second
 * line is of a page in quirks mode, where a number without a unit may be a length.
 */
#include <simplecss.h>
#include <stdio.h>
#include <string.h>

#define ROOM 512

static const char sheet[] = "p { position: sticky; position: -webkit-sticky; width: 2em; width: 34 }";

/* <p style="top: 0; top: none"> */
static const simplecss_element elements[] = {{0, 0, 0, 0}};
static const size_t ends[] = {1};
static const char style[] = "top: 0; top: none";

/* Prints the declarations that win: of the rule, and the numbers of those of the attribute. */
static void print_winners(const size_t *rules, size_t rules_len, const size_t *winners) {
    for (size_t at = 1; at <= 2 * winners[0]; at += 2) {
        if (winners[at] > 0) {
            printf("style[%zu] ", winners[at + 1]);
        } else if (rules_len >= 9 + 6 * (winners[at + 1] + 1)) {
            const size_t *one = rules + 9 + 6 * winners[at + 1];
            printf("%.*s: %.*s; ", (int)one[1], sheet + one[0], (int)one[3], sheet + one[2]);
        }
    }
    printf("\n");
}

/* Prints what wins on a page, in quirks mode if that is not 0. Returns a status. */
static uint32_t print_page(size_t quirks) {
    static uint8_t texts[ROOM], own_texts[ROOM];
    static size_t rules[ROOM], winners[ROOM];
    size_t rules_len, winners_len, sheet_ends[1], own_ends[2];
    simplecss_tree tree = {elements, 1, (const uint8_t *)"p", 1, ends, 1, NULL, 0, 0, NULL, 0};
    simplecss_tree_fault fault = {0, 0};
    simplecss_kept_query query = {NULL};
    simplecss_sheets sheets;
    simplecss_own own;
    simplecss_asked names;
    memset(&sheets, 0, sizeof sheets);
    memset(&own, 0, sizeof own);
    memset(&names, 0, sizeof names);
    uint32_t status = simplecss_taken((const uint8_t *)sheet, strlen(sheet), quirks, texts, ROOM, &sheets.texts_len);
    if (status == SIMPLECSS_DONE) {
        status = simplecss_taken((const uint8_t *)style, strlen(style), SIMPLECSS_TAKEN_STYLE | quirks, own_texts, ROOM, &own.texts_len);
    }
    sheet_ends[0] = sheets.texts_len;
    sheets.texts = texts;
    sheets.ends = sheet_ends;
    sheets.ends_count = 1;
    /* The element has no presentation declarations. */
    own_ends[0] = own_ends[1] = own.texts_len;
    own.texts = own_texts;
    own.ends = own_ends;
    own.ends_count = 2;
    if (status == SIMPLECSS_DONE) {
        size_t grammar = quirks ? SIMPLECSS_HTML_QUIRKS : SIMPLECSS_HTML;
        status = simplecss_query_new(&tree, grammar, &sheets, ROOM, &own, &query, &fault);
    }
    if (status == SIMPLECSS_DONE) {
        status = simplecss_query_numbers(&query, SIMPLECSS_RULES, &names, 0, 0, ROOM, rules, ROOM, &rules_len);
    }
    if (status == SIMPLECSS_DONE) {
        status = simplecss_query_numbers(&query, SIMPLECSS_WINNERS, &names, 0, 1, ROOM, winners, ROOM, &winners_len);
    }
    if (status == SIMPLECSS_DONE) {
        print_winners(rules, rules_len, winners);
    }
    simplecss_query_free(&query);
    return status;
}

int main(void) {
    uint32_t status = print_page(0);
    return status == SIMPLECSS_DONE ? (int)print_page(SIMPLECSS_TAKEN_QUIRKS) : (int)status;
}
