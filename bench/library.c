/* The C library as a program, for bench/speed.py: `read SHEET` writes the statements of a sheet, `match SELECTORS TREE`, with
 * a selector a line and a tree as `cssq` takes it, what simplecss_match_selectors does, and `winners SHEET TREE` what
 * a query is asked for SIMPLECSS_WINNERS writes. */
#include <stdio.h>
#include <stdlib.h>
#include <string.h>

#include "simplecss.h"

/* No answer is longer. What is not written takes no memory. */
#define ROOM ((size_t)1 << 32)

typedef struct { uint8_t *data; size_t len; } text;
typedef struct { text all; size_t *ends; size_t count; } strings;

static void *room(size_t count, size_t size) {
    void *items = malloc(count * size + 1);
    if (!items) exit(3);
    return items;
}

static text read_file(const char *path) {
    FILE *file = fopen(path, "rb");
    if (!file || fseek(file, 0, SEEK_END)) exit(4);
    text found = {0, (size_t)ftell(file)};
    found.data = room(found.len, 1);
    rewind(file);
    if (fread(found.data, 1, found.len, file) != found.len) exit(4);
    fclose(file);
    return found;
}

/* Returns where a byte is first from an offset up to another, or the other offset. */
static size_t find(text where, size_t at, size_t end, char byte) {
    const uint8_t *found = memchr(where.data + at, byte, end - at);
    return found ? (size_t)(found - where.data) : end;
}

static size_t count_of(text where, char byte) {
    size_t count = 0;
    for (size_t at = 0; (at = find(where, at, where.len, byte)) < where.len; at++) count++;
    return count;
}

static strings strings_for(text source, size_t most) {
    return (strings){{room(source.len, 1), 0}, room(most, sizeof(size_t)), 0};
}

/* Adds the text between two offsets. */
static void add(strings *to, text from, size_t start, size_t end) {
    memcpy(to->all.data + to->all.len, from.data + start, end - start);
    to->all.len += end - start;
    to->ends[to->count++] = to->all.len;
}

static strings lines_of(text source) {
    strings found = strings_for(source, count_of(source, '\n'));
    for (size_t at = 0, end; at < source.len; at = end + 1) {
        end = find(source, at, source.len, '\n');
        add(&found, source, at, end);
    }
    return found;
}

/* Adds the text from an offset up to a byte or the end of the line, and returns where it ends. */
static size_t add_field(strings *to, text from, size_t at, size_t line, char byte) {
    size_t end = find(from, at, line, byte);
    add(to, from, at, end);
    return end;
}

static size_t read_tree(text source, simplecss_element *elements, strings *found) {
    size_t count = 0;
    for (size_t at = 0, line; at < source.len; at = line + 1, count++) {
        simplecss_element element = {0, 0, 0, 0};
        line = find(source, at, source.len, '\n');
        for (; source.data[at] != '\t'; at++) element.depth = 10 * element.depth + source.data[at] - '0';
        for (at = add_field(found, source, at + 1, line, '\t'); at < line; element.attributes++) {
            at = add_field(found, source, at + 1, line, '=');
            at = add_field(found, source, at + 1, line, '\t');
        }
        elements[count] = element;
    }
    return count;
}

static int write_answer(uint32_t status, const uint8_t *out, size_t len) {
    if (status == SIMPLECSS_DONE) fwrite(out, 1, len, stdout);
    return (int)status;
}

static simplecss_tree tree_of(text source) {
    size_t lines = count_of(source, '\n');
    simplecss_element *elements = room(lines, sizeof *elements);
    strings found = strings_for(source, lines + 2 * count_of(source, '\t'));
    size_t count = read_tree(source, elements, &found);
    return (simplecss_tree){
        elements, count, found.all.data, found.all.len, found.ends, found.count, NULL, 0, 0, NULL, 0,
    };
}

static int winners(text sheet, text tree, size_t *out) {
    simplecss_sheets sheets = {sheet.data, sheet.len, &sheet.len, 1};
    simplecss_own own = {0};
    simplecss_tree page = tree_of(tree);
    simplecss_tree_fault fault;
    size_t len = 0;
    simplecss_kept_query query = {0};
    simplecss_asked names = {0};
    uint32_t status = simplecss_query_new(&page, SIMPLECSS_MODERN, &sheets, SIMPLECSS_NO_LIMIT, &own, &query, &fault);
    if (status == SIMPLECSS_DONE)
        status = simplecss_query_numbers(
            &query, SIMPLECSS_WINNERS, &names, 0, SIZE_MAX, SIMPLECSS_NO_LIMIT, out, ROOM / sizeof len, &len);
    simplecss_query_free(&query);
    return write_answer(status, (uint8_t *)out, len * sizeof len);
}

static int match(text selectors, text tree, uint8_t *out) {
    size_t len = 0;
    strings rules = lines_of(selectors);
    simplecss_tree_fault fault;
    simplecss_tree page = tree_of(tree);
    uint32_t status = simplecss_match_selectors(
        rules.all.data, rules.all.len, rules.ends, rules.count, SIMPLECSS_MODERN, &page, SIMPLECSS_NO_LIMIT, out, ROOM, &len,
        &fault);
    return write_answer(status, out, len);
}

int main(int argc, char **words) {
    void *out = room(ROOM, 1);
    size_t len = 0;
    if (argc == 4 && !strcmp(words[1], "match")) return match(read_file(words[2]), read_file(words[3]), out);
    if (argc == 4 && !strcmp(words[1], "winners")) return winners(read_file(words[2]), read_file(words[3]), out);
    if (argc != 3 || strcmp(words[1], "read")) return 2;
    text sheet = read_file(words[2]);
    simplecss_kept_sheet kept = {0};
    uint32_t status = simplecss_sheet_new(sheet.data, sheet.len, &kept);
    if (status == SIMPLECSS_DONE)
        status = simplecss_sheet_numbers(&kept, SIMPLECSS_STATEMENTS, SIMPLECSS_NO_LIMIT, out, ROOM / sizeof len, &len);
    simplecss_sheet_free(&kept);
    return write_answer(status, out, len * sizeof len);
}
