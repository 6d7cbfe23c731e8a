/* An example: prints which selectors match the elements of a page.
 *
 *     clang -I include examples/c/page.c out/libsimplecss.a -o page
 */
#include <simplecss.h>
#include <stdio.h>
#include <stdlib.h>
#include <string.h>

#define COUNT(array) (sizeof(array) / sizeof((array)[0]))

static const char *const texts[] = {"ul > li:first-child", ".new"};

/* <ul><li class="new"></li><li title="a&#10;b"></li></ul> */
static const simplecss_element elements[] = {{0, 0, 0, 0}, {1, 1, 0, 0}, {1, 1, 0, 0}};
static const char *const strings[] = {"ul", "li", "class", "new", "li", "title", "a\nb"};

/* Puts texts one after another into a buffer, with the end of each. Returns their length. */
static size_t put(const char *const *from, size_t count, char *buffer, size_t *ends) {
    size_t end = 0;
    for (size_t i = 0; i < count; i++) {
        memcpy(buffer + end, from[i], strlen(from[i]));
        end += strlen(from[i]);
        ends[i] = end;
    }
    return end;
}

int main(void) {
    char selectors[256];
    size_t ends[COUNT(texts)];
    size_t selectors_len = put(texts, COUNT(texts), selectors, ends);
    char names[256];
    size_t name_ends[COUNT(strings)];
    size_t names_len = put(strings, COUNT(strings), names, name_ends);
    simplecss_tree tree = {elements, COUNT(elements), (const uint8_t *)names, names_len,
                           name_ends, COUNT(strings), NULL, 0, 0, NULL, 0};

    /* The first call asks for the length, and the second writes. */
    uint8_t *out = (uint8_t *)malloc(1);
    size_t size = 0;
    size_t len = 0;
    simplecss_tree_fault fault = {0, 0};
    uint32_t status = SIMPLECSS_TOO_SMALL;
    while (out != NULL) {
        status = simplecss_match_selectors((const uint8_t *)selectors, selectors_len, ends, COUNT(texts),
                                           SIMPLECSS_HTML, &tree, SIMPLECSS_NO_LIMIT, out, size, &len,
                                           &fault);
        if (status != SIMPLECSS_TOO_SMALL) {
            break;
        }
        free(out);
        size = len;
        out = (uint8_t *)malloc(size);
    }
    if (out == NULL || status != SIMPLECSS_DONE) {
        fprintf(stderr, "status %u, element %zu\n", (unsigned)status, fault.element);
        free(out);
        return 1;
    }
    fwrite(out, 1, len, stdout);
    free(out);
    return 0;
}
