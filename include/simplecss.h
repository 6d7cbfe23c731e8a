/* simplecss.h: selectors and style sheets, and which of them match the elements of a tree.
 *
 * A text is a pointer and a length in bytes, in UTF-8, and needs no zero byte at its end. Pointers must
 * not be NULL, even if the length or the count is 0.
 *
 * Several texts of one style sheet are passed as one buffer that has them one after another, and an
 * array of where each ends. The ends do not fall, and the last is the length of the buffer.
 *
 * A call that keeps the rules of a style sheet has a `limit`: the most declarations that the rules of
 * all texts together may hold. A rule set's declarations are stored once for each of its selectors and
 * count as often, so the rules of a short text may take memory quadratic in its length. Pass
 * SIMPLECSS_NO_LIMIT for texts that you trust.
 *
 * A call whose answer may be much longer than what is passed has a parameter `most`: the most bytes, or numbers,
 * that its answer may have. `most` does not depend on the buffer: if the answer is longer than the buffer and not
 * than `most`, `*len` is still the length that it needs. Lines are as many as elements and each as long as
 * rules match, so 10,000 rules and 10,000 elements may have an answer of 500 MB; those of statements have
 * the group rules that each is in, up to 64. Pass SIMPLECSS_NO_LIMIT for no limit. The call stops at the
 * first line that passes the limit, and makes nothing after it.
 *
 * A tree is a structure of arrays: its elements in document order, the bytes of all its strings one
 * after another, where each string ends, and what else is said of its elements. An element's strings are its name
 * and then, for each attribute, its key and its value; those of the first element come first. A value may be any
 * text: empty, with TABs, newlines, `=`, control characters or zero bytes. So may a key, but no two keys of
 * an element are equal. A name is not empty.
 *
 * A call that reads selectors has a `grammar`, such as SIMPLECSS_MODERN. `simplecss_port` reads the grammar of the
 * Rust crate simplecss, CSS 2.1. All others read modern CSS.
 *
 * Each call writes its answer to `out`, a buffer of `out_size` bytes, and returns a status:
 *
 *   SIMPLECSS_DONE          the answer is at the front of `out`, and `*len` is its length
 *   SIMPLECSS_TOO_SMALL     nothing was written; `*len` is the length that the answer needs
 *   any other               nothing was written; `*len` is 0
 *
 * Bytes of `out` after the answer are unchanged, and an answer has no zero byte at its end. A retry
 * repeats all the work, so start with a buffer that is probably large enough.
 *
 * A call keeps nothing but in a handle: any thread may call at any time, with an `out`, `len` and `fault` of its
 * own, and with a handle that no other call has meanwhile;
 * threads may share what they pass for reading. The library allocates by malloc, realloc and free, and
 * a call leaves nothing allocated. Do not call it from a signal handler. `out`, `len` and `fault` must
 * not overlap each other or anything that is passed for reading.
 *
 * Time and memory: a style sheet is read in time that grows as its texts, as n log n to put n rules in
 * order, and of each rule set as its selectors times its declarations, since each rule has a copy of
 * the declarations: 12 kB may take a hundred milliseconds and the memory of millions of declarations,
 * unless `limit` refuses them. A tree is read in time that grows as its strings. Of each element those
 * rules are tested whose id, class, name or attribute it has; a test takes no longer than the
 * selector's components times (the element's depth + 1). With `~`, which only modern selectors have,
 * the earlier siblings of the element and of its ancestors are tested, too.
 */
#ifndef SIMPLECSS_H
#define SIMPLECSS_H

#include <stddef.h>
#include <stdint.h>

#ifdef __cplusplus
extern "C" {
#endif

/* The version of this header. That of the library is what simplecss_version writes. */
#define SIMPLECSS_VERSION "0.3.0"

/* The status of a call. */
#define SIMPLECSS_DONE 0u          /* the answer was written */
#define SIMPLECSS_REFUSED 1u       /* a selector is refused, a grammar is another number, or ends are not
                                      those of texts: of two faults of texts the first in order is
                                      reported */
#define SIMPLECSS_TREE_FAULT 2u    /* the tree has a fault, in `*fault` */
#define SIMPLECSS_OUT_OF_MEMORY 3u /* an allocation failed */
#define SIMPLECSS_TOO_MANY_DECLARATIONS 4u /* the rules would hold more declarations than `limit` */
#define SIMPLECSS_TOO_LONG 4u      /* the same status: the answer would have more bytes than `most` */
#define SIMPLECSS_NOT_UTF8 5u      /* a text is not UTF-8, or the strings of a tree are not */
#define SIMPLECSS_TOO_SMALL 6u     /* the answer is longer than the buffer */
#define SIMPLECSS_TOO_MANY_LAYERS 7u /* style sheets name more than 1,024 layers where their group rules hold */
#define SIMPLECSS_CLOSED 8u        /* the handle has no object */

/* A limit that allows any number of declarations, or of bytes. */
#define SIMPLECSS_NO_LIMIT SIZE_MAX

/* An element of a tree. The depth of a root is 0, and that of any other element is one more than its
 * parent's. So the depth of the first element is 0, and that of another at most the depth of the
 * element before it and one more. */
typedef struct simplecss_element {
    size_t depth;      /* how many ancestors the element has */
    size_t attributes; /* how many attributes it has */
    size_t states;     /* the sum of its states, such as SIMPLECSS_LINK | SIMPLECSS_HOVER, with those that the tree
                        * names: SIMPLECSS_NAMED << n is the one with the name `n` */
    size_t namespace_number; /* the number of its namespace, 0 if it is in none */
} simplecss_element;

/* The states of elements, each of which a pseudo-class tests. Other numbers mean nothing. */
#define SIMPLECSS_LINK 1u
#define SIMPLECSS_VISITED 2u
#define SIMPLECSS_HOVER 4u
#define SIMPLECSS_ACTIVE 8u
#define SIMPLECSS_FOCUS 16u
/* No state: the element has a text of its own that is not empty. White space is a text, but a comment is not.
 * `:empty` of modern selectors tests it. */
#define SIMPLECSS_HAS_TEXT 32u
/* No state: modern `:scope` matches the element, if it is the first one with this number. If none has it, `:scope`
 * matches the root. */
#define SIMPLECSS_SCOPE 64u

/* The first of the states that a tree names, as `target` or `dir(ltr)`: modern `:target` matches the elements in it.
 * The second is twice this number, and so on, while a size_t has bits for them without its last one: 56 of 64 bits. */
#define SIMPLECSS_NAMED 128u

/* An attribute that is in a namespace, such as `xlink:href`. It is none of those that its element counts. */
typedef struct simplecss_namespaced_attribute {
    size_t element;          /* the index of its element, from 0; if there is none, the attribute is ignored */
    size_t namespace_number; /* the number of its namespace; with 0, the attribute is ignored */
} simplecss_namespaced_attribute;

/* A tree: its elements in document order, the bytes of all its strings, and where each ends. After the strings of
 * all elements come those of the attributes in namespaces, then names of states, which compare without case, and then
 * prefixes. An attribute in a namespace has two strings, its local name and its value. simplecss_page_select reads
 * selectors with these: modern `svg|a` matches an element `a` in the namespace with the number of the prefix `svg`,
 * whose case matters; a prefix that is not here refuses the list. The empty prefix is of the default namespace.
 * `[svg|a]` matches an element with an attribute `a` in the namespace of the prefix, `[a]` and `[|a]` one with an
 * attribute `a` in no namespace, and `[*|a]` both. Reading takes time that grows as the text times the prefixes,
 * matching as the tests of states times the states, and as those of attributes times the element's. */
typedef struct simplecss_tree {
    const simplecss_element *elements;
    size_t elements_count;
    const uint8_t *strings;
    size_t strings_len;
    const size_t *string_ends;
    size_t string_ends_count;
    const simplecss_namespaced_attribute *attributes; /* the attributes in namespaces, in any order */
    size_t attributes_count;
    size_t states_count; /* how many names of states are after the strings of the attributes */
    const size_t *prefixes; /* the numbers of the namespaces of prefixes, which are the last strings */
    size_t prefixes_count;
} simplecss_tree;

/* The grammars of selectors. Modern ones are Level 3, and of Level 4 `:is()`, `:where()`, `:not()` with a list,
 * `:has()`, `:nth-child(.. of S)`, `:lang()` with a list, `:dir(ltr)`, `:dir(rtl)`, `:any-link`, and the flags `i` and
 * `s`. Reading takes time that grows as the text.
 *
 * Three of the numbers read modern selectors: they say how a document compares names (HTML Standard,
 * "Case-sensitivity of selectors"). The tree of an HTML document has in lower case what is compared without
 * case: names of elements and keys of attributes, the values of the attributes that the standard lists (accept to
 * vlink), and in quirks mode the values of `id` and `class`. At these values the flag `s` of an attribute selector
 * changes nothing. Attributes decide which elements of an HTML document match `:checked`, `:disabled`, `:enabled`,
 * `:required`, `:optional`, `:read-write`, `:read-only`, `:placeholder-shown`, `:default`, `:indeterminate`, `:open`
 * and `:defined`. `:dir(ltr)` and `:dir(rtl)` match there by `dir`, but no element with `dir=auto`, no `bdi` without
 * `dir`, and none of those in it, since their directions depend on texts. */
#define SIMPLECSS_MODERN 0u      /* names, keys and values are compared byte by byte */
#define SIMPLECSS_HTML 1u        /* as an HTML document compares them */
#define SIMPLECSS_HTML_QUIRKS 2u /* as an HTML document in quirks mode does */
#define SIMPLECSS_PORT 3u        /* the grammar of the Rust crate simplecss: CSS 2.1 */

/* The faults of a tree. */
#define SIMPLECSS_BAD_DEPTH 1u    /* the depth is greater than it may be */
#define SIMPLECSS_EMPTY_NAME 2u   /* the name is empty */
#define SIMPLECSS_BAD_STRINGS 3u  /* a string of the element is missing: there are too few ends, or an
                                     end is less than the one before, greater than `strings_len` or
                                     not between two characters. At one more than the number of
                                     elements: there are strings, or bytes, that no element has */
#define SIMPLECSS_REPEATED_KEY 4u /* two attributes have one key */
#define SIMPLECSS_OTHER_TREE 5u   /* with the edits of this start tag the page would have another tree */
#define SIMPLECSS_MISPLACED 6u    /* this edit is not in order, or not in the sheet */
#define SIMPLECSS_OTHER_SHEET 7u  /* with this edit, or one beside it, the sheet would be read as something else */

/* A device, which media queries ask about. */
typedef struct simplecss_device {
    uint32_t width;          /* in pixels */
    uint32_t height;         /* in pixels */
    uint32_t resolution;     /* in thousandths of a dot for each pixel: 1000 is 96 dpi */
    uint32_t medium;         /* its type, such as SIMPLECSS_SCREEN */
    uint32_t pointer;        /* such as SIMPLECSS_FINE */
    uint32_t hover;          /* not 0: its pointer can hover */
    uint32_t dark;           /* not 0: its user prefers dark colours */
    uint32_t reduced_motion; /* not 0: its user prefers less motion */
    uint32_t device_width;   /* its own in pixels: 0 for `width`, which is that of a page */
    uint32_t device_height;  /* its own in pixels: 0 for `height` */
    uint32_t color;          /* how many bits each of its colours has */
    uint32_t color_index;    /* how many colours its table of colours has: 0 without one */
    uint32_t monochrome;     /* how many bits a dot has, if it shows one colour: else 0 */
    uint32_t gamut;          /* the colours that it shows, such as SIMPLECSS_SRGB */
    uint32_t high_range;     /* not 0: its range of brightness is high */
    uint32_t grid;           /* not 0: it shows characters in a grid */
    uint32_t update;         /* how fast what it shows can change, such as SIMPLECSS_FAST */
    uint32_t scripting;      /* whether scripts run, such as SIMPLECSS_SCRIPTS */
    uint32_t display;        /* how a web application is shown, such as SIMPLECSS_BROWSER */
    uint32_t reduced_transparency; /* not 0: its user prefers less transparency */
    uint32_t contrast;       /* that its user prefers, such as SIMPLECSS_USUAL_CONTRAST */
    uint32_t forced_colors;  /* not 0: its user has chosen a few colours, and no others are shown */
    uint32_t any_hover;      /* not 0: another of its pointers can hover */
    uint32_t any_coarse;     /* not 0: another of its pointers is coarse */
    uint32_t any_fine;       /* not 0: another of its pointers is fine */
} simplecss_device;

/* A screen of 1,280 x 800 pixels with a mouse: `simplecss_device device = SIMPLECSS_DESKTOP;`. */
#define SIMPLECSS_DESKTOP {1280, 800, 1000, SIMPLECSS_SCREEN, SIMPLECSS_FINE, 1, 0, 0, 0, 0, 8, 0, 0, \
    SIMPLECSS_SRGB, 0, 0, SIMPLECSS_FAST, SIMPLECSS_SCRIPTS, SIMPLECSS_BROWSER, 0, SIMPLECSS_USUAL_CONTRAST, \
    0, 0, 0, 0}

/* The types of devices. */
#define SIMPLECSS_SCREEN 0u
#define SIMPLECSS_PRINT 1u
#define SIMPLECSS_SPEECH 2u

/* The pointers of devices. */
#define SIMPLECSS_NO_POINTER 0u
#define SIMPLECSS_COARSE 1u /* a finger */
#define SIMPLECSS_FINE 2u   /* a mouse */

/* The colours that devices show, each with those before it. */
#define SIMPLECSS_SRGB 0u
#define SIMPLECSS_P3 1u
#define SIMPLECSS_REC2020 2u

/* How fast what devices show can change. */
#define SIMPLECSS_NEVER 0u /* paper */
#define SIMPLECSS_SLOW 1u  /* electronic paper */
#define SIMPLECSS_FAST 2u  /* a screen */

/* Whether scripts run. */
#define SIMPLECSS_NO_SCRIPTS 0u
#define SIMPLECSS_INITIAL_SCRIPTS 1u /* while a page is loaded */
#define SIMPLECSS_SCRIPTS 2u

/* How web applications are shown. */
#define SIMPLECSS_BROWSER 0u
#define SIMPLECSS_MINIMAL_UI 1u
#define SIMPLECSS_STANDALONE 2u
#define SIMPLECSS_FULLSCREEN 3u
#define SIMPLECSS_WINDOW_CONTROLS_OVERLAY 4u
#define SIMPLECSS_PICTURE_IN_PICTURE 5u
#define SIMPLECSS_TABBED 6u

/* The contrast that users prefer. */
#define SIMPLECSS_USUAL_CONTRAST 0u
#define SIMPLECSS_MORE_CONTRAST 1u
#define SIMPLECSS_LESS_CONTRAST 2u
#define SIMPLECSS_CUSTOM_CONTRAST 3u /* colours of the user's choice, neither more nor less */

/* A fault of a tree: the first fault of its first faulty element, in the order of these numbers
 * but for the name, which is tested after the strings. Set at SIMPLECSS_TREE_FAULT only. Elements are
 * numbered from 1. */
typedef struct simplecss_tree_fault {
    uint32_t fault;
    size_t element;
} simplecss_tree_fault;

/* Writes the version of the library, such as "0.3.0". */
uint32_t simplecss_version(uint8_t *out, size_t out_size, size_t *len);

/* The handle of a list of selectors that the library keeps. Set it to zero, {0}, before its first call. It may be
 * moved, and is then asked where it is. Never copy it and use both, and never write its field. A question to a handle
 * without a list answers SIMPLECSS_CLOSED. A question leaves the list as it is, at any status. */
typedef struct simplecss_kept_list {
    void *at;
} simplecss_kept_list;

/* Keeps a copy of a text and the selectors of the list that it is, so that the text need not be passed again. What the
 * handle had before is let go. Refused if one of them is not a selector; simplecss_refusal writes why. At any status
 * but SIMPLECSS_DONE the handle has no list, and nothing is allocated. */
uint32_t simplecss_list_new(const uint8_t *text, size_t text_len, size_t grammar,
                            simplecss_kept_list *out);

/* Writes ten numbers of each selector of a list: nine as simplecss_sheet_numbers writes of a selector, with offsets into the
 * list, and the length of what simplecss_list_text writes of it:
 *   start len  is_read ids classes types  element name is_any  printed_len
 * Of the port, offsets and lengths but for the last are 0. `out_size` and `*len` count numbers. The time grows as the
 * text. */
uint32_t simplecss_list_numbers(simplecss_kept_list *list, size_t *out, size_t out_size, size_t *len);

/* Writes the selectors of a list one after another, each printed as CSSOM serializes it. */
uint32_t simplecss_list_text(simplecss_kept_list *list, uint8_t *out, size_t out_size, size_t *len);

/* Lets a list go. Does nothing where the handle has none, as after a first call. */
void simplecss_list_free(simplecss_kept_list *list);

/* Writes the row, the column and the reason of the first error of a list of selectors, with a space between them, or
 * nothing where it has none: "1 5 `>` begins no selector", of `.a >> b`. Rows and columns begin at 1, and columns
 * count characters. Modern lists are read with the names that the tree declares, as simplecss_page_select reads them. For
 * the port the tree is not read. */
uint32_t simplecss_refusal(const uint8_t *text, size_t text_len, size_t grammar,
                           const simplecss_tree *tree,
                           uint8_t *out, size_t out_size, size_t *len, simplecss_tree_fault *fault);

/* The calls that match elements: `:first-child` matches an element without a previous sibling, a first root
 * too. `:lang(x)` tests the attribute `lang` of the element or of its nearest ancestor that has one. `:link`,
 * `:visited`, `:hover`, `:active` and `:focus` test the element's states. The words of a value, of which `.a` and
 * `[k~=a]` test one, are for the port what spaces separate: where other white space of a `class` is to separate
 * words too, replace it by spaces.
 *
 * A modern selector with a pseudo-element matches nothing. `:nth-child()` and the like count the roots of a tree as
 * siblings, too; `:root` matches each of them. A tree of 2^32 elements or more is reported as out of memory. The list of
 * each `:has()`, and of each `:nth-child()` that has one, is tested once on each element, and those after the first
 * `:has()` once more for what is inside of one. These tests, counted once, are at most `most`, too: elements times
 * lists, with one for each list and one for each of its selectors. */

/* Writes a line for each element of a tree: its number, a colon, the number of each of the selectors that
 * matches it after a space, and a newline. Each text is a selector. Elements and selectors are numbered from 1.
 * Refused if a text is not a selector. */
uint32_t simplecss_match_selectors(const uint8_t *texts, size_t texts_len,
                                   const size_t *ends, size_t ends_count, size_t grammar,
                                   const simplecss_tree *tree, size_t most,
                                   uint8_t *out, size_t out_size, size_t *len,
                                   simplecss_tree_fault *fault);

/* The handle of a page that the library keeps: a copy of a tree, made ready to be asked. It is used as the handle of a
 * list is: set to zero at first, moved but never copied, and its field never written. A question to a handle without a
 * page answers SIMPLECSS_CLOSED, and a question leaves the page as it is, at any status. */
typedef struct simplecss_kept_page {
    void *at;
} simplecss_kept_page;

/* Keeps a copy of a tree, reads it and counts its siblings, so that the tree need not be passed again. What the handle
 * had before is let go. `grammar` is SIMPLECSS_MODERN, SIMPLECSS_HTML or SIMPLECSS_HTML_QUIRKS; another one is refused.
 * At any status but SIMPLECSS_DONE the handle has no page, and nothing is allocated. */
uint32_t simplecss_page_new(const simplecss_tree *tree, size_t grammar, simplecss_kept_page *out,
                            simplecss_tree_fault *fault);

/* Writes the numbers, from 1 and in document order, of the elements that one of the selectors of a list matches, of
 * those whose indices, from 0, are `from` and more, and less than `to`; there may be fewer elements than `to`. The list
 * is read with the names that the tree declares, and refused if one of them is not a selector. `scope` is the number of the element
 * that `:scope` matches, or 0: then `:scope` matches the root. SIMPLECSS_SCOPE in the states of an element means nothing
 * here. `out_size` and `*len` count numbers; more than `most` are SIMPLECSS_TOO_LONG.
 *
 * The time grows as the list, as the elements of the range with their tests, and as the ancestors of the first of them,
 * and not as the page: but for `:has()`, `:nth-child(.. of S)` and `&`, whose lists are tested on each element of the
 * page, and whose tests are at most `most`, too. */
uint32_t simplecss_page_select(simplecss_kept_page *page, const uint8_t *selectors, size_t selectors_len, size_t scope,
                               size_t from, size_t to, size_t most, size_t *out, size_t out_size, size_t *len);

/* Lets a page go. Does nothing where the handle has none, as after a first call. */
void simplecss_page_free(simplecss_kept_page *page);

/* The handle of a style sheet that the library keeps: a copy of a text. It is used as the handle of a list is: set to zero
 * at first, moved but never copied, and its field never written. A question to a handle without a sheet answers
 * SIMPLECSS_CLOSED, and a question leaves the sheet as it is, at any status. Numbers that were asked for once are kept, so
 * that to ask for them again, as with a longer buffer, takes no longer than to copy them. */
typedef struct simplecss_kept_sheet {
    void *at;
} simplecss_kept_sheet;

/* Keeps a copy of a text as a style sheet by the modern grammar (CSS Syntax Module Level 3). Any text is one. What the handle
 * had before is let go. At any status but SIMPLECSS_DONE the handle has no sheet, and nothing is allocated. */
uint32_t simplecss_sheet_new(const uint8_t *text, size_t text_len, simplecss_kept_sheet *out);

/* What is asked of a sheet in numbers. */
#define SIMPLECSS_STATEMENTS 0u
#define SIMPLECSS_CONTENTS 1u

/* Writes what is asked, with offsets and lengths in bytes, and the former into the sheet. Another number is refused.
 *
 * SIMPLECSS_STATEMENTS: numbers of each statement, also in group rules. Each has ten, which are by its kind
 *   SIMPLECSS_RULE         start len closed  prelude prelude_len block block_len  0 0
 *   SIMPLECSS_AT_RULE      start len closed  name name_len prelude prelude_len  block block_len
 *   SIMPLECSS_AT_STATEMENT start len 1       name name_len prelude prelude_len  0 0
 *   any other kind         start len 0       0 0 0 0  0 0
 * then three: how many numbers follow for its group rules, for its selectors and for its items; and then these.
 * `closed` is 0 if the end of the text closes it, and else 1; a kind from SIMPLECSS_SKIPPED on says why it is skipped.
 * A rule with one invalid selector is skipped as a whole. Only rules have selectors and items. Each group rule that
 * the statement is in, such as @media, has six numbers, from the outermost; each selector of a rule has nine:
 *   start len  name name_len prelude prelude_len
 *   start len  is_read ids classes types  element name is_any
 * `is_read` says whether what is before the pseudo-element is a modern selector, by which the library matches
 * elements: then `ids`, `classes` and `types` are the specificity of the whole. It is 0 with a prefix that an
 * `@namespace` of the sheet declares, since this call knows no namespaces; another prefix makes the selector invalid.
 * `element` is where the pseudo-element begins, with its colons, and `name` where its name does; both are the end of
 * the selector if there is none. `is_any` is 1 if there is one of any element, as in `a > ::before`: what is before it
 * is then to be read with `*` after it.
 * Each item of the block has ten numbers, as a statement has, or
 *   SIMPLECSS_DECLARATION  start len closed  name name_len value value_len  important 0
 * Of "a{b:c}" the numbers are 3 0 6 1 0 1 2 3 0 0, 0 9 10, 0 1 1 0 0 1 1 1 0, and 0 2 3 1 2 1 4 1 0 0.
 *
 * SIMPLECSS_CONTENTS: what is in the blocks of the style rules, in place and in order, also of rules in style rules
 * (CSS Nesting 1): the ten numbers of each item, as above, and ten where the block of a style rule
 * or of a group rule begins or ends, also outside of style rules:
 *   SIMPLECSS_RULE       start len 0  prelude prelude_len  contents 0  0 0
 *   SIMPLECSS_GROUP      start len 0  name name_len  prelude prelude_len  contents 0
 *   SIMPLECSS_BLOCK_END  start 1 0  0 0 0 0 0 0
 * The rule begins at `start`, and its contents, after the brace, at `contents`, `len` bytes later. A nested rule, or a
 * group rule in a style rule, is no item here: it begins, its contents follow, and it ends. The end of the innermost
 * block is its brace. A block that is open at the end of the sheet has no end. Items that are in no style rule are not
 * written.
 * Of "a{b:c}" the numbers are 3 0 2 0 0 1 2 0 0 0, 0 2 3 1 2 1 4 1 0 0, and 13 5 1 0 0 0 0 0 0 0.
 *
 * Time and memory grow as the text, and those of SIMPLECSS_STATEMENTS as the group rules that each is in, up to 64. `most`,
 * `out_size` and `*len` count numbers. */
uint32_t simplecss_sheet_numbers(simplecss_kept_sheet *sheet, size_t asked, size_t most,
                                 size_t *out, size_t out_size, size_t *len);

/* What is asked of a sheet as a text. */
#define SIMPLECSS_SHORT 0u
#define SIMPLECSS_LINES 1u
#define SIMPLECSS_IMPORTS 2u

/* Writes what is asked. Another number is refused.
 *
 * SIMPLECSS_SHORT, SIMPLECSS_LINES: the sheet, printed: without comments, and without blanks, semicolons and rules that say
 * nothing, with no more bytes than are needed, or with a line for each declaration and each rule. What a custom property
 * has, what is skipped in a style rule, and most blocks of at-rules that are no group rules are kept byte for byte. What is
 * printed says the same; where it would not, the text itself is written.
 *
 * SIMPLECSS_IMPORTS: of each `@import` that is in force (CSS Cascading 5, section 2) a line of numbers, its texts one after
 * another, and a newline:
 *   start size  is_string url_len  layer layer_len  has_supports supports_len  media_len
 * Numbers have one space between them, and `start` and lengths count bytes. The texts are as written: the url, which
 * simplecss_spell decodes as a string if `is_string` is 1, where it is between quotes; the name of the layer; what is
 * in `supports(..)`; and the media queries. `layer` is 0 for none, 1 for one without a name, and 2 for one with a name.
 * Of `@import "a" layer(b) print;` it is the lines "0 27 1 1 2 1 0 0 5" and "abprint". */
uint32_t simplecss_sheet_text(simplecss_kept_sheet *sheet, size_t asked, uint8_t *out, size_t out_size, size_t *len);

/* Lets a sheet go. Does nothing where the handle has none, as after a first call. */
void simplecss_sheet_free(simplecss_kept_sheet *sheet);

/* Writes the numbers of each item of a style attribute, as simplecss_sheet_numbers does of those of a block. A rule in it is a
 * broken declaration. `out_size` and `*len` count numbers. */
uint32_t simplecss_declarations(const uint8_t *text, size_t text_len,
                                size_t *out, size_t out_size, size_t *len);

/* Writes a style sheet with edits, and every other byte as it is. Each edit has three numbers, its kind and the offsets where
 * what it replaces begins and ends, and a text. The texts are in `strings`, one after another, and `ends` has where each ends.
 * The edits are in order of their places. What the text takes the place of is:
 *   SIMPLECSS_EDIT_PRELUDE     what is before the block of a rule, as its selectors or its condition; or what is between the
 *                              name of an at-rule and its block or its end
 *   SIMPLECSS_EDIT_VALUE       the value of a declaration in a style rule, without its importance
 *   SIMPLECSS_EDIT_BLOCK       what is in the block of an at-rule that is no group rule
 *   SIMPLECSS_EDIT_STATEMENTS  statements in no style rule, or what is between two of them: none takes them out, and where
 *                              nothing is replaced the text is put in
 *   SIMPLECSS_EDIT_CONTENTS    the same of what is in the block of a style rule: declarations, at-rules, rules
 * simplecss_sheet_numbers writes the offsets of all these. The sheet with the edits is read again. It says what the
 * sheet said, in order, but for what the edits replace, in whose place is what their texts say; and no text begins or ends a rule
 * that it does not end or begin. Else the answer is SIMPLECSS_TREE_FAULT: `fault->fault` is SIMPLECSS_MISPLACED or
 * SIMPLECSS_OTHER_SHEET, and `fault->element` the number of the edit, from 1. SIMPLECSS_REFUSED means that the numbers and the
 * texts are no edits. Time and memory grow as the sheet and the edits. */
#define SIMPLECSS_EDIT_PRELUDE 1
#define SIMPLECSS_EDIT_VALUE 2
#define SIMPLECSS_EDIT_BLOCK 3
#define SIMPLECSS_EDIT_STATEMENTS 4
#define SIMPLECSS_EDIT_CONTENTS 5
uint32_t simplecss_edit(const uint8_t *text, size_t text_len, const size_t *edits, size_t edits_count,
                        const uint8_t *strings, size_t strings_len, const size_t *ends, size_t ends_count,
                        uint8_t *out, size_t out_size, size_t *len, simplecss_tree_fault *fault);

/* What `simplecss_html` is asked for, added up: that scripts run, so that what is in a `noscript` is text; that what is
 * in templates is left out; and that the text is an XML document. */
#define SIMPLECSS_HTML_SCRIPTS 1
#define SIMPLECSS_HTML_NO_TEMPLATES 2
#define SIMPLECSS_HTML_XML 4
/* What is wrong with an XML document: a character that no document has; markup that is not closed; a start tag; an end tag that does
 * not match; no element, or one that is not closed; a second root; a text outside of the root, or a `&` or `]]>` in one; a processing
 * instruction, or a declaration of XML that is not at the front; a document type, or one that declares entities or attributes; two
 * attributes of one name; a prefix that is not declared. */
#define SIMPLECSS_XML_CHARACTER 1
#define SIMPLECSS_XML_UNCLOSED 2
#define SIMPLECSS_XML_TAG 3
#define SIMPLECSS_XML_END_TAG 4
#define SIMPLECSS_XML_OPEN_ELEMENT 5
#define SIMPLECSS_XML_SECOND_ROOT 6
#define SIMPLECSS_XML_TEXT 7
#define SIMPLECSS_XML_INSTRUCTION 8
#define SIMPLECSS_XML_DOCTYPE 9
#define SIMPLECSS_XML_SAME_ATTRIBUTE 10
#define SIMPLECSS_XML_PREFIX 11

/* Reads a page in HTML, as browsers do, or the content of an element: with a `space` of 1, 2 or 3 that of an element of
 * HTML, SVG or MathML whose start tag without its `<` and `>` is `context`; with 0 a whole page. A mark of the order of
 * bytes at the front is no part of it. Writes numbers to `out`, and to `strings`, a buffer of `strings_size` bytes, the
 * texts that some of them are of. The numbers are:
 *
 *   how many start tags there are, and of each, in order, the offsets where it begins and ends;
 *   how many attributes, elements, other nodes and merged tags there are; 1 in quirks mode, or 0; 1 where browsers may
 *   read the page in different ways, or 0; the offset, and 1, where the head ends, so that what is put there is in it, or
 *   0 without a head;
 *   of each start tag how many attributes it has;
 *   five of each attribute: the offsets where its name begins and ends, where its value begins and ends, without quotes,
 *   and where it ends itself;
 *   six of each element, in document order: the number of its start tag and of its parent, from 1, or 0 for none; how
 *   many ancestors it has; its namespace, as `space`; and the offsets where its end tag begins and ends, which are equal
 *   where it ends without one;
 *   five of each other node: its kind, 1 for a text, 2 for a CDATA section, 3 for a comment, 4 for a document type; how
 *   many elements begin before it; the number of its parent, or 0; and the offsets where it begins and ends;
 *   two of each merged tag, whose attributes an element has besides its own: the element's number, or 0 if it is left out,
 *   and the tag's, from 1;
 *   where each string ends in `strings`: a name and a value of each attribute, a name of each element, and what each other
 *   node says, of a comment and a document type nothing;
 *   the number of the tag of the `base` whose url counts, from 1, or 0; how many style sheets the page names (HTML Standard,
 *   sections 4.2.3, 4.2.4 and 4.2.6; CSSOM, section 6.2); and two of each sheet, in document order: the number of its tag, from 1,
 *   and what it is, added up: 1 for a link, 2 for an alternative sheet, 4 for one that is in use if nobody asks for another one,
 *   8 for one whose urls are taken from the `base`, which does not stand after it.
 *
 * Of attributes of one name the first counts, of the element's own tag before those of merged ones. Names are in lower
 * case but for those with capitals in SVG and MathML, and values and texts are without references. Several elements may
 * have one start tag. Each start tag is one that the HTML Standard's tokenizer reads of the page, one after another.
 *
 * With SIMPLECSS_HTML_XML the text is a document in XML (XML 1.0, Fifth Edition, and Namespaces in XML 1.0), and `space` and the
 * other flags do not count. Names are local names, and the namespace of an element is its number among the document's, from 1, or 0.
 * There are no merged tags and no style sheets; in place of merged tags is the number of the namespace of each attribute, in order. After
 * all other strings are the names of the namespaces: 1 and 2 are those of `xml` and of `xmlns`, in which declarations of
 * prefixes are. Another node of kind 5 is a processing instruction. Each start tag of the document is one that is read of it as XML. A document that is not well-formed
 * answers SIMPLECSS_REFUSED: `*len` is the offset of what is wrong, and `*strings_len` one of SIMPLECSS_XML_. One that declares entities
 * or attributes is refused. One with more than 4,096 namespaces, or 1,000 declarations of them in scope, or with one of more than 1,000 bytes,
 * answers SIMPLECSS_TOO_LONG.
 *
 * At SIMPLECSS_TOO_SMALL both lengths are those that the answer needs, at any other status but SIMPLECSS_DONE both are 0,
 * and `out` is unchanged. A page whose elements are nested in a way that takes time or elements out of proportion, about
 * 100 steps for each eight bytes, answers SIMPLECSS_TOO_LONG. Time and memory grow as the text within that. `out_size` and
 * `*len` count numbers. */
uint32_t simplecss_html(const uint8_t *text, size_t text_len, size_t space,
                        const uint8_t *context, size_t context_len, size_t flags,
                        size_t *out, size_t out_size, size_t *len,
                        uint8_t *strings, size_t strings_size, size_t *strings_len);

/* Writes a page in HTML with edits, and every other byte as it is; with SIMPLECSS_HTML_XML as `flags` a document in XML. Each edit has three numbers and two strings. The strings are
 * in `strings`, one after another, and `ends` has where each ends. A mark of the order of bytes at the front is no part of the
 * page. A tag is the index of a start tag of the page, from 0, as simplecss_html writes them; a place is an offset. The edits are
 * in order of their places, and those of a tag's attributes one after another:
 *   SIMPLECSS_EDIT_SET       tag 0      name value   the attribute has the value
 *   SIMPLECSS_EDIT_BEFORE    tag 0      name value   the attribute has the value before its own
 *   SIMPLECSS_EDIT_REMOVE    tag 0      name ""      the attribute is removed
 *   SIMPLECSS_EDIT_TEXT      tag place  "" text      what is between the tag of a `style` element and the place becomes the text
 *   SIMPLECSS_EDIT_PUT_IN    place 0    "" text      a `style` element with the text is put in at the place; in XML with the
 *                                                    first string as the prefix of its name
 *   SIMPLECSS_EDIT_TAKE_OUT  tag place  "" ""        the `link` or the `style` element with this tag, which ends at the place, is
 *                                                    taken out
 *   SIMPLECSS_EDIT_REPLACE   tag place  "" text      a `style` element with the text takes its place
 *   SIMPLECSS_EDIT_TAKE_OUT_INSTRUCTION place place "" "" an instruction `xml-stylesheet` of XML between the places is taken out
 * Names are in lower case, in XML as they are in the document, where a `style` and a `link` may have any prefix. Values and texts
 * are those that a browser reads: values are escaped, and in XML texts are. The page with the edits is read again. The tree of it is the same but for `style` elements and links, each
 * element that is put in is read as one, each attribute that is set has exactly its value, and the others are as they were. Else the answer is SIMPLECSS_TREE_FAULT: `fault->fault` is SIMPLECSS_OTHER_TREE, and
 * `fault->element` the number of a tag, from 1, whose edits are at fault, or of one near it. SIMPLECSS_REFUSED means that the
 * edits are out of order, one is where it cannot be, or a text would end its `style` element; of XML also that the text is not well-formed,
 * or not with the edits. Time and memory grow as the page
 * and the edits, and for each tag as its attributes times its changes. */
#define SIMPLECSS_EDIT_SET 1
#define SIMPLECSS_EDIT_BEFORE 2
#define SIMPLECSS_EDIT_REMOVE 3
#define SIMPLECSS_EDIT_TEXT 4
#define SIMPLECSS_EDIT_PUT_IN 5
#define SIMPLECSS_EDIT_TAKE_OUT 6
#define SIMPLECSS_EDIT_REPLACE 7
#define SIMPLECSS_EDIT_TAKE_OUT_INSTRUCTION 8
uint32_t simplecss_html_edit(const uint8_t *text, size_t text_len, size_t flags, const size_t *edits, size_t edits_count,
                             const uint8_t *strings, size_t strings_len, const size_t *ends, size_t ends_count,
                             uint8_t *out, size_t out_size, size_t *len, simplecss_tree_fault *fault);

/* Writes a page in HTML with style sheets in the `style` attributes of its elements: those in `sheets`, one after another, of which
 * each ends where `ends` says, and then those of its own `style` elements. A declaration is written on each element that its rule
 * matches, before those of its own, in the order of the cascade, unless a rule that stays may say something else of the same family of
 * properties there: then the family stays in the sheets. What depends on a state of the page (`:hover`), on a condition
 * (`@media`) or on a layer stays in a `style` element, and so do rules for elements without a tag. Other rules go; with
 * SIMPLECSS_INLINE_KEEP_STYLE as `flags` the page's own `style` elements stay as they are. A sheet that a `link` or an `@import` names
 * is not read, and loses to what is written.
 *
 * The page that is written is the page with edits of `style` attributes and `style` elements; every other byte is there, in order. It is
 * read again, and its tree is the same. A mark of the order of bytes at the front stays. SIMPLECSS_REFUSED means that browsers read
 * the page in different ways, that what stays would end its element or has no place, that a tree would be another one, or that
 * the ends are none. SIMPLECSS_TOO_LONG means that more than `limit` declarations, counted once for each element, and bytes would be
 * looked at and written, or 64 times as many tests be needed, or that elements are nested too deep. Time and memory grow as the text
 * within that. */
#define SIMPLECSS_INLINE_KEEP_STYLE 1
uint32_t simplecss_inline(const uint8_t *text, size_t text_len, const uint8_t *sheets, size_t sheets_len, const size_t *ends,
                          size_t ends_count, size_t flags, size_t limit, uint8_t *out, size_t out_size, size_t *len);

/* Writes what says in which encoding a page is, a tab and the encoding's name, as of the Encoding Standard: "mark" for a mark of
 * the order of bytes at its front, "label" for the label that comes with it, as from a server, "meta" or "declaration" for a
 * `meta` or an XML declaration in its first 1,024 bytes, or a later `meta` in its head, or "default", which is windows-1252. The page and the label are any
 * bytes; an empty label, or one of no encoding, does not count. */
uint32_t simplecss_html_encoding(const uint8_t *text, size_t text_len, const uint8_t *label, size_t label_len,
                                 uint8_t *out, size_t out_size, size_t *len);

/* A policy: what is allowed of style sheets and style attributes from people whom nobody knows. `texts` has the scope and the
 * prefix of names, and then all lists, one after another. The scope is the selector under which all selectors of a sheet are
 * put: one compound of names, ids and classes, such as `.mail`. Names are in lower case, and match names in any case. */
typedef struct simplecss_policy {
    const uint8_t *texts;
    size_t texts_len;
    const size_t *ends;
    size_t ends_count;
    size_t properties; /* how many of the names are of properties; they are after the scope and the prefix */
    size_t functions;  /* how many are of functions of values; they are next, and so on */
    size_t strings;    /* how many are of properties of which values may have strings */
    size_t pseudos;    /* how many are of pseudo-classes and pseudo-elements */
    size_t urls;       /* how many urls are answered: they are next, and then as many texts, one in place of each */
    size_t named;      /* how many properties have words that are names, which get the prefix */
    size_t words;      /* how many words are no names there */
    size_t limits;     /* how many properties have limits: they are next, and then the limit of each; all after these are
                        * words of media queries, and `@supports`, `@container`, `@layer` and `@keyframes`, if these at-rules
                        * are kept, too; names of the last two get the prefix, and without one they are dropped */
    size_t important;  /* whether declarations may be important: any number but 0 */
    size_t itself;     /* whether rules may be for the elements that the scope matches, too: any number but 0 */
    size_t longest;    /* the most bytes of a text: a longer one is dropped whole */
} simplecss_policy;

/* A limit is a text of two numbers and of words, with commas or spaces between them, such as `-50,500,auto`. A value of the
 * property may have nothing but numbers between these, such words, commas and solidi. An absolute length counts in pixels, and
 * all else by its number. A number with an exponent or with more than 15 digits is beyond any limit. */

/* What `simplecss_clean` is asked for. `simplecss_dropped` takes the first two. */
#define SIMPLECSS_CLEAN_SHEET 0u
#define SIMPLECSS_CLEAN_STYLE 1u    /* the text is a style attribute */
#define SIMPLECSS_IS_CLEAN_SHEET 2u
#define SIMPLECSS_IS_CLEAN_STYLE 3u
#define SIMPLECSS_MAIL_POLICY 4u    /* the lists of the policy for the bodies of mails */
#define SIMPLECSS_COMMENT_POLICY 5u /* those of the policy for comments */
#define SIMPLECSS_CLEAN_URLS 6u     /* the urls of the text */

/* Writes what a policy allows of a style sheet or a style attribute, in its order (CLEAN.md). Of a style attribute it
 * is the declarations that are allowed. It has no control character, no angle bracket, brace, backslash or `@`; escape `&` and
 * quotes where it becomes an attribute. Of a sheet it is rules whose selectors are the scope, a space or ` > `, and a
 * selector that was there, and `@media` rules and other listed at-rules with such rules; it has no `<`, and leaves nothing open. `html`, `body`,
 * `:root` and `:host` at the front of a selector mean the scope. With nothing after them they are dropped, unless the
 * policy has `itself`. With SIMPLECSS_IS_CLEAN_SHEET
 * and SIMPLECSS_IS_CLEAN_STYLE writes `true` or `false`: whether the text is one that the policy allows, as it is. With
 * SIMPLECSS_MAIL_POLICY and SIMPLECSS_COMMENT_POLICY the text and the policy are not read, and lines are written: `properties`,
 * `functions`, `strings`, `pseudos`, `media`, `named`, `words`, `limited`, `limits` and `reasons`, each with its names, and `important`, `itself`
 * and `longest` with a number, with spaces between them. The names of reasons are in the order of their numbers, from 0.
 *
 * A declaration with a url is kept if the policy answers the url, and has the answer in its place, as in `url("..")`. With
 * SIMPLECSS_CLEAN_URLS the urls of the text are written, in order, with a byte 0 after each, and the policy is not read: those
 * without quotes, and strings after `url(`, `src(`, `image(`, `image-set(` and `-webkit-image-set(` in a declaration. With a
 * prefix custom properties are allowed, and each word that begins with two hyphens has the prefix after them.
 *
 * Refused if ends are not those of texts, if there are fewer texts than are counted, for a sheet if the scope is no such
 * compound, and if `asked` is another number. Time grows as the text times the names of a list. */
uint32_t simplecss_clean(const uint8_t *text, size_t text_len, const simplecss_policy *policy, size_t asked,
                         uint8_t *out, size_t out_size, size_t *len);

/* Writes three numbers of each piece of a text that a policy drops: the offsets of its first byte and after its last one, and
 * the number of the reason. `form` is SIMPLECSS_CLEAN_SHEET or SIMPLECSS_CLEAN_STYLE. Refused as by simplecss_clean.
 * `out_size` and `*len` count numbers. */
uint32_t simplecss_dropped(const uint8_t *text, size_t text_len, const simplecss_policy *policy, size_t form,
                           size_t *out, size_t out_size, size_t *len);

/* What `simplecss_lint` is asked for, added up: what is valid and unsupported, too; that the text is a style attribute;
 * what the kinds are, in place of the mistakes of the text; and whether properties take values. */
#define SIMPLECSS_LINT_ALL 1
#define SIMPLECSS_LINT_ATTRIBUTE 2
#define SIMPLECSS_LINT_KINDS 4
#define SIMPLECSS_LINT_VALUES 8

/* Writes a line for each mistake in a style sheet or a style attribute: its kind in words, the offsets of its first
 * byte and after its last one, and what was probably meant, or nothing; and if one answer is right, also the offsets
 * between which it is written, and the answer; with tabs between them. First are those that `docs/LINT.md` says to be
 * found exactly, and then guesses. With SIMPLECSS_LINT_KINDS a line for each kind: its words, what it means, "error",
 * "warning" or "note", a sheet with it alone, and the sheet without it, in which `\n` is a newline. With
 * SIMPLECSS_LINT_VALUES the text is lines of a property, a colon and a value without `!important`, and of each a line
 * is written: "valid" if the standards and browsers take the value, "invalid" if none of them does, or else "unknown". */
uint32_t simplecss_lint(const uint8_t *text, size_t text_len, size_t asked,
                        uint8_t *out, size_t out_size, size_t *len);

/* What `simplecss_taken` is told of a text, added up: that it is a style attribute, and that the page is in quirks mode, or
 * the attribute is of an element that is not in HTML, which browsers read so. */
#define SIMPLECSS_TAKEN_STYLE 1u
#define SIMPLECSS_TAKEN_QUIRKS 2u

/* Writes a style sheet as browsers read it: with as many spaces in place of each declaration whose value no browser takes, as
 * far as a table says. They are those of style rules, also of rules in style rules, or those of a style attribute. The calls
 * that say what wins take texts as they are passed: pass them what this one writes, of each text of an author or a user and
 * of each attribute, and such declarations win nowhere; or pass the text itself, where each value may win. Offsets are the
 * same in both (examples/c/values.c). Of a property that is not in the table nothing is known, nor of most values with a
 * function. In quirks mode some properties take numbers as lengths, and three or six hexadecimal digits as colours. */
uint32_t simplecss_taken(const uint8_t *text, size_t text_len, size_t asked,
                         uint8_t *out, size_t out_size, size_t *len);

/* The kinds of statements and items. Those from SIMPLECSS_SKIPPED to SIMPLECSS_INVALID_SELECTOR are skipped. */
#define SIMPLECSS_DECLARATION 0u
#define SIMPLECSS_AT_RULE 1u      /* with a block */
#define SIMPLECSS_AT_STATEMENT 2u /* an at-rule without one */
#define SIMPLECSS_RULE 3u
#define SIMPLECSS_SKIPPED 4u
#define SIMPLECSS_BROKEN_DECLARATION 4u
#define SIMPLECSS_HAS_BAD_STRING 5u
#define SIMPLECSS_HAS_BAD_URL 6u
#define SIMPLECSS_STRAY_BRACKET 7u
#define SIMPLECSS_TOO_DEEP 8u
#define SIMPLECSS_NO_BLOCK 9u
#define SIMPLECSS_NESTED_RULE 10u
#define SIMPLECSS_INVALID_SELECTOR 11u
#define SIMPLECSS_GROUP 12u     /* the block of a group rule begins */
#define SIMPLECSS_BLOCK_END 13u /* the innermost block ends */

/* Writes the value of a declaration with what closes it: the end of a string, a url or a comment that the end
 * of the text left open, and then the brackets that are open. Pass a "value" of simplecss_declarations or
 * simplecss_sheet_numbers whose "closed" is false; one that is closed is written unchanged. Refused if no more text makes
 * it a value that is read whole: it begins or ends with a blank or a comment, has a bracket that closes nothing,
 * or a string with a newline in it; or if more than 64 brackets are open. */
uint32_t simplecss_close(const uint8_t *value, size_t value_len,
                         uint8_t *out, size_t out_size, size_t *len);

/* Writes what a list of media queries says on a device (Media Queries 4 and 5): `true`, `false` or `unknown`. It
 * holds if that is `true`. Known are the types, and the features of which `simplecss_device` has a field, with
 * `aspect-ratio`, `device-aspect-ratio`, `orientation`, `overflow-block`, `overflow-inline`, `device-posture`,
 * `-webkit-transform-3d` and `-webkit-device-pixel-ratio`, also with `min-` and `max-` where the standards have
 * these. Values may be a `calc()`. Refused if a number of the device is none of those above. */
uint32_t simplecss_media(const uint8_t *text, size_t text_len, const simplecss_device *device,
                         uint8_t *out, size_t out_size, size_t *len);

/* Writes whether a condition of `@supports` holds (CSS Conditional Rules 4), as `true` or `false`. Supported are
 * declarations whose properties have these names, given in lower case, but for values that no browser takes
 * (simplecss_taken), those of custom properties, and `selector(..)` of what is a modern selector. It takes time that
 * grows as the text times the names. */
uint32_t simplecss_supports(const uint8_t *text, size_t text_len,
                            const uint8_t *properties, size_t properties_len,
                            const size_t *ends, size_t ends_count,
                            uint8_t *out, size_t out_size, size_t *len);

/* Writes the computed values of the properties that an element declares (CSS Custom Properties for Cascading
 * Variables 1): of each the length of its value in digits, a newline and the value, or only a newline where it has
 * none. The texts of a buffer are pairs: first the name and the value of each of these properties, `wanted` in number;
 * then `registered` rules `@property` (CSS Properties and Values API 1), of each what is before its block and what is
 * in it; then the name and the value of each that the parent has. Each `var()` is replaced by the value of the first
 * property of its name, or by its fallback; one that the element does not declare has that of the parent, or its
 * initial value, as its registration says. Custom properties that lead to one another in a circle have no value, nor
 * has a value with a `var()` that is none, or one longer than `limit`: but a registered one whose syntax is not `*`
 * has then what it has undeclared. A custom property may come to `initial`, `inherit` or `unset`. Of rules of one name
 * the last counts that is valid; a value is not compared with its syntax. Refused if the texts are not pairs. The time
 * grows as the texts that are read and the values. */
uint32_t simplecss_values(const uint8_t *texts, size_t texts_len, const size_t *ends, size_t ends_count,
                          size_t wanted, size_t registered, size_t limit, size_t most,
                          uint8_t *out, size_t out_size, size_t *len);

/* Writes whether each `var()` of a value has the name of a custom property, and nothing else but a fallback in which
 * this holds too, as `true` or `false`. A declaration with another value is to be dropped. */
uint32_t simplecss_valid_value(const uint8_t *value, size_t value_len,
                               uint8_t *out, size_t out_size, size_t *len);

/* Writes what is asked of a property, whose name is in lower case:
 *   SIMPLECSS_LONGHANDS    the longhands that a shorthand sets, or what another name of a longhand denotes, with spaces between
 *                          them; any other name is refused, so that of a longhand
 *   SIMPLECSS_SHORTHANDS   the shorthands that set a longhand, each with a newline after it
 *   SIMPLECSS_COUNTERPART  the other name of a longhand that has a logical and a physical one (CSS Logical Properties 1), where
 *                          text is horizontal, from left to right: of `margin-block-start` it is `margin-top`, and the other way
 *                          round; both set the same, and the cascade decides between them; any other name is refused
 *   SIMPLECSS_INHERITED    whether it is inherited, as `true` or `false`: a property of CSS 2.1, of SVG or of a browser, or a
 *                          custom property, whose name is as it is written
 * Another number is refused. */
#define SIMPLECSS_LONGHANDS 0u
#define SIMPLECSS_SHORTHANDS 1u
#define SIMPLECSS_COUNTERPART 2u
#define SIMPLECSS_INHERITED 3u
uint32_t simplecss_property(const uint8_t *name, size_t name_len, size_t asked,
                            uint8_t *out, size_t out_size, size_t *len);

/* Style sheets that are read together, one after another, with their origins, and the group rules that hold: two
 * texts for each, its keyword in lower case, as `media`, and its prelude as it is written. An `@layer` holds without
 * being named. The origin of a sheet is SIMPLECSS_AUTHOR if it is another number, or if there are fewer. Each origin
 * has its own layers.
 *
 * All of a sheet may be in group rules, as in the layer and the media of the `@import` that names it. `depths` says in
 * how many each sheet is: in none if there are fewer numbers. `around` has the numbers of these, those of the first
 * sheet first, and of each sheet from the outermost. The first of `groups` has the number 0; an `@layer` that a sheet is
 * in is one of them. One whose number is greater than all does not hold. A layer without a name is the same where its
 * number is. The top level of the sheet stays one, which no `}` closes.
 *
 * `namespaces` has the urls of the namespaces that elements are in, of which the first has the number 1 in a tree, the
 * second 2, and so on. The rules of each sheet are read with the prefixes and the default namespace that its
 * `@namespace` rules declare (CSS Namespaces 3). A url that is not one of these is of a namespace that no element is
 * in. A rule with a prefix that its sheet does not declare is skipped. If there are no urls, namespaces are not known:
 * a rule with a declared prefix is not supported, and a default namespace changes nothing. */
typedef struct simplecss_sheets {
    const uint8_t *texts;
    size_t texts_len;
    const size_t *ends;
    size_t ends_count;
    const size_t *origins;
    size_t origins_count;
    const uint8_t *groups;
    size_t groups_len;
    const size_t *group_ends;
    size_t group_ends_count;
    const size_t *around;
    size_t around_count;
    const size_t *depths;
    size_t depths_count;
    const uint8_t *namespaces;
    size_t namespaces_len;
    const size_t *namespace_ends;
    size_t namespace_ends_count;
} simplecss_sheets;

/* The origins of sheets. */
#define SIMPLECSS_AUTHOR 0u
#define SIMPLECSS_USER 1u
#define SIMPLECSS_USER_AGENT 2u

/* The declarations of elements that are in no rule: two texts for each element of a tree, in order, of its `style`
 * attribute and of its presentation declarations, such as `fill: red`, which are presentational hints. The texts of
 * further elements are empty, so there may be none at all. */
typedef struct simplecss_own {
    const uint8_t *texts;
    size_t texts_len;
    const size_t *ends;
    size_t ends_count;
} simplecss_own;

/* Properties, each with one name or several, such as a longhand and the shorthands that set it: the names of all, and
 * how many each has. Names after these are of no property. */
typedef struct simplecss_asked {
    const uint8_t *names;
    size_t names_len;
    const size_t *ends;
    size_t ends_count;
    const size_t *counts;
    size_t counts_count;
} simplecss_asked;

/* The handle of a query that the library keeps: copies of a tree, of style sheets and of elements' own declarations, read
 * once and made ready to be asked. It is used as the handle of a list is: set to zero at first, moved but never copied,
 * and its field never written. A question to a handle without a query answers SIMPLECSS_CLOSED, and a question leaves the
 * query as it is, at any status. */
typedef struct simplecss_kept_query {
    void *at;
} simplecss_kept_query;

/* Keeps copies of what is passed, reads the sheets and the tree, and counts the tree, so that nothing of it need be passed
 * again. What the handle had before is let go. `grammar` is SIMPLECSS_MODERN, SIMPLECSS_HTML or SIMPLECSS_HTML_QUIRKS;
 * another one is refused. The time grows as n log n of the texts and of the group rules that are passed, if each is passed
 * once, and of those that each sheet is in. In the sheets `:scope` matches the root, whatever the states of the elements say. At any status
 * but SIMPLECSS_DONE the handle has no query, and nothing is allocated. */
uint32_t simplecss_query_new(const simplecss_tree *tree, size_t grammar, const simplecss_sheets *sheets, size_t limit,
                             const simplecss_own *own, simplecss_kept_query *out, simplecss_tree_fault *fault);

/* What is asked of a query. */
#define SIMPLECSS_WINNERS 0u       /* the declarations that win on each element of a range */
#define SIMPLECSS_WINNERS_NAMED 1u /* of each element of a range, and of each of some properties, the one that wins */
#define SIMPLECSS_MATCHES 2u       /* the rules that match each element of a range */
#define SIMPLECSS_EXPLAINED 3u     /* all declarations of a property that apply to each element, and by what each loses */
#define SIMPLECSS_RULES 4u         /* the rules; the range, the names and `most` mean nothing */

/* Writes what is asked of the elements whose indices, from 0, are `from` and more, and less than `to`; there may be fewer
 * elements than `to`. Another number is refused. `names` are those of SIMPLECSS_WINNERS_NAMED, and with
 * SIMPLECSS_EXPLAINED all are of one property, such as a longhand and the shorthands that set it. `out_size` and `*len` count
 * numbers; more than `most` are SIMPLECSS_TOO_LONG.
 *
 * SIMPLECSS_WINNERS: for each element how many declarations win on it, of the sheets and of its own, and then two numbers
 * for each: where it is, and how many declarations are before it there. It is in the rule of this index among those of
 * SIMPLECSS_RULES, from 0; in the `style` attribute if the number is that of all rules; and one more says that it is a
 * presentation declaration. They are in the order of the cascade, the strongest last, so that each is to be applied
 * after those before it. One wins for each property: names are compared in any case, but for those of custom properties;
 * shorthands are not expanded. Important declarations win, of an earlier origin over those of a later one, and in an
 * earlier layer over those in a later one; of others those of a later origin and in a later layer; then the greater
 * specificity decides, and then the order. Presentation declarations are of an origin between the user's and the
 * author's; the author's declarations in the attribute win over those in rules that are as important. As long as one
 * that wins for a property is `revert` or `revert-layer` (CSS Cascading 5, section 7.3), it is rolled back: what is of
 * its origin, or in its layer, and what is after that do not count for the property. An attribute is a layer after all
 * others, and in it an important `revert-layer` leaves important declarations of rules, as in browsers; `revert` of
 * the user agent wins as it is, and so does one with nothing before it, in an earlier origin or layer, of whichever
 * property: it undoes what those before it in the order set. Else, if nothing is left, nothing wins. A rule with a
 * pseudo-element applies to no element, and a declaration with an invalid `var()` (CSS Custom Properties 1, section 3)
 * is none.
 *
 * SIMPLECSS_WINNERS_NAMED: for each element, and for each property that is asked for, the two numbers of the declaration
 * that wins of all that have one of its names: for a longhand and its shorthands the one that sets it. If there is none
 * they are two more than the number of all rules, and 0.
 *
 * SIMPLECSS_MATCHES: for each element how many rules match it, and then the index of each among those of SIMPLECSS_RULES.
 * A rule with a pseudo-element matches the elements that may have it.
 *
 * SIMPLECSS_EXPLAINED: for each element how many declarations of the property apply to it, and then three numbers for
 * each, the strongest first. The first two are where it is and how many declarations are before it there, as with
 * SIMPLECSS_WINNERS. The third is the criterion of CSS Cascading 5, section 6.1, by which it loses to the one before it:
 * 0 of the first, 1 importance and origin, 2 the `style` attribute, 3 layers, 4 specificity, 5 the order in which they
 * stand. A declaration that is `revert` or `revert-layer` is one of them: if it is the first, SIMPLECSS_WINNERS_NAMED says
 * which wins.
 *
 * SIMPLECSS_RULES: numbers of the style rules that apply, in the order of the cascade (CSS Cascading 5): by origins, the
 * user agent's first, then by layers, then by specificity, then as they stand. A rule set has a rule for each of its
 * selectors that is supported. The numbers of a rule are
 *   sheet start layer  selector_len name_len  ids classes types  count
 * and then, for each of its `count` declarations,
 *   name name_len value value_len important closed
 * `sheet` is the number of the text, from 0; `start`, where the rule's declarations begin there, and `name` and `value`
 * are offsets into this text; `layer` is greater the later the layer of the rule is in its origin, and of the author's how
 * many layers are before; `selector_len` is the length of the selector's text, which simplecss_query_text writes, and
 * `name_len` that of the name of a pseudo-element at its end, or 0; `ids`, `classes` and `types` are the specificity, with
 * what `&` counts; `important` and `closed` are 0 or 1. A style rule may be in another (CSS Nesting 1). Declarations
 * between two rules in a rule are a rule of their own.
 *
 * The time grows as the rules, as the elements of the range with their tests, and as the ancestors of the first of them;
 * with SIMPLECSS_WINNERS for each element as the declarations of all rules that match it, of which `limit` is the most,
 * and of its own, as n log n of those that win, or of all where one is rolled back; with SIMPLECSS_WINNERS_NAMED for each
 * property as the declarations times its names; with SIMPLECSS_EXPLAINED as n log n of all, and as these times the names. It does not grow as the page, but where the sheets have lists that are
 * tested on each element: of a style rule with rules in it, of `:has()` and of `:nth-child(.. of S)`. Each is tested once
 * on each element, and those after the first `:has()` once more for what is inside of one. These tests, counted once, are
 * at most `most`, too: elements times lists, with one for each list and one for each of its selectors. */
uint32_t simplecss_query_numbers(simplecss_kept_query *query, size_t asked, const simplecss_asked *names, size_t from,
                                 size_t to, size_t most, size_t *out, size_t out_size, size_t *len);

/* Writes the texts of the selectors of the rules of a query, in the order of SIMPLECSS_RULES, one after another, as they
 * are written in the sheets. */
uint32_t simplecss_query_text(simplecss_kept_query *query, size_t most,
                              uint8_t *out, size_t out_size, size_t *len);

/* Lets a query go. Does nothing where the handle has none, as after a first call. */
void simplecss_query_free(simplecss_kept_query *query);

/* Writes five numbers for each token of a text (CSS Syntax Module Level 3, section 4): its kind, where it begins
 * and ends, and where what is in it begins and ends. That is the text of a string between its quotes, a url without
 * quotes, the name of a function, an at-keyword or a hash, the unit of a dimension, or the percent sign; of any other
 * token it is all of it. Offsets count bytes. `out_size` and `*len` count numbers. The tokens are the text, one after
 * another. */
uint32_t simplecss_tokens(const uint8_t *text, size_t text_len,
                          size_t *out, size_t out_size, size_t *len);

/* The kinds of tokens. */
#define SIMPLECSS_WHITESPACE 0u
#define SIMPLECSS_COMMENT 1u
#define SIMPLECSS_IDENT 2u
#define SIMPLECSS_FUNCTION 3u /* a name and a parenthesis */
#define SIMPLECSS_AT_KEYWORD 4u
#define SIMPLECSS_HASH 5u
#define SIMPLECSS_ID_HASH 6u  /* a hash with a name */
#define SIMPLECSS_STRING 7u
#define SIMPLECSS_BAD_STRING 8u
#define SIMPLECSS_URL 9u      /* without quotes */
#define SIMPLECSS_BAD_URL 10u
#define SIMPLECSS_NUMBER 11u
#define SIMPLECSS_PERCENTAGE 12u
#define SIMPLECSS_DIMENSION 13u
#define SIMPLECSS_CDO 14u     /* <!-- */
#define SIMPLECSS_CDC 15u     /* --> */
#define SIMPLECSS_DELIM 16u   /* any other byte: a colon, a semicolon, a comma, a bracket or a sign */

/* Writes six numbers for each name in lists of selectors: its kind; where its sign (`.` or `::`) begins, where the
 * name itself does, and where it ends; how many parentheses are open around it; and how many of them up to the first
 * one of the outermost `:not()`, or 0. Names are found by the tokens of each text, so any text has some. Offsets are
 * into the buffer. A closing parenthesis is reported, too, as SIMPLECSS_CLOSE with an empty name after it. */
uint32_t simplecss_names(const uint8_t *texts, size_t texts_len,
                         const size_t *ends, size_t ends_count,
                         size_t *out, size_t out_size, size_t *len);

/* The kinds of names. */
#define SIMPLECSS_TYPE 0u
#define SIMPLECSS_CLASS 1u
#define SIMPLECSS_ID 2u
#define SIMPLECSS_ATTRIBUTE 3u
#define SIMPLECSS_PSEUDO_CLASS 4u
#define SIMPLECSS_PSEUDO_CLASS_FUNCTION 5u /* with parentheses */
#define SIMPLECSS_PSEUDO_ELEMENT 6u
#define SIMPLECSS_PSEUDO_ELEMENT_FUNCTION 7u
#define SIMPLECSS_NAMESPACE 8u             /* before `|` */
#define SIMPLECSS_CLOSE 9u

/* Writes a text with its escapes decoded, or with escapes:
 *   SIMPLECSS_DECODED_NAME    what it denotes as a name
 *   SIMPLECSS_DECODED_STRING  what it denotes between the quotes of a string
 *   SIMPLECSS_IDENTIFIER      an identifier that denotes it, as CSS.escape of browsers does; of an empty name nothing
 *   SIMPLECSS_QUOTED          a string in double quotes that denotes it
 * NUL is written as U+FFFD. Another number is refused. */
#define SIMPLECSS_DECODED_NAME 0u
#define SIMPLECSS_DECODED_STRING 1u
#define SIMPLECSS_IDENTIFIER 2u
#define SIMPLECSS_QUOTED 3u
uint32_t simplecss_spell(const uint8_t *text, size_t text_len, size_t asked,
                         uint8_t *out, size_t out_size, size_t *len);

/* What is asked by the grammar of the port alone.
 *
 * Of the style sheet of the texts:
 *   SIMPLECSS_PORT_SHEET     the printed sheet, and a newline where it has a rule
 *   SIMPLECSS_PORT_RULES     of each rule, in the order of specificity, a line of numbers, its printed selector and a
 *                            newline, and then of each of its declarations a line of numbers, its name, its value and a
 *                            newline:
 *                              ids classes types selector_len count
 *                              name_len value_len important
 *                            Numbers have a space between them, and lengths count bytes. Of `a{b:c}` it is the lines
 *                            "0 0 1 1 1", "a", "1 1 0" and "bc"
 *   SIMPLECSS_PORT_MATCHES   a line for each element of the tree: its number, a colon, the number of each rule that
 *                            matches it after a space, and a newline. Elements and rules are numbered from 1
 *   SIMPLECSS_PORT_STYLES    of each element a line of how many names have a winning declaration, and then each of these,
 *                            as SIMPLECSS_PORT_RULES has them, in the order in which the cascade applies them
 * Of the bytes of `texts` as one text, whatever the ends and the limit are:
 *   SIMPLECSS_PORT_SKIPPED   of each piece of it as a sheet that is skipped a line, "row column text_len reason", what is
 *                            quoted of it, and a newline: the lines "1 1 12 at-rule not supported" and "@media print"
 *   SIMPLECSS_PORT_SELECTED  the number of each element of the tree that one of the selectors of the list matches that it
 *                            is, and a newline. Refused if it is no list */
#define SIMPLECSS_PORT_SHEET 0u
#define SIMPLECSS_PORT_RULES 1u
#define SIMPLECSS_PORT_SKIPPED 2u
#define SIMPLECSS_PORT_MATCHES 3u
#define SIMPLECSS_PORT_STYLES 4u
#define SIMPLECSS_PORT_SELECTED 5u

/* Writes what is asked. Another number is refused. The tree is read, and `most` counts, where elements are asked for. */
uint32_t simplecss_port(const uint8_t *texts, size_t texts_len,
                        const size_t *ends, size_t ends_count, size_t limit, size_t asked,
                        const simplecss_tree *tree, size_t most,
                        uint8_t *out, size_t out_size, size_t *len, simplecss_tree_fault *fault);

#ifdef __cplusplus
}
#endif

#endif
