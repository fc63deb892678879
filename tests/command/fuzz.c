/* The target of libFuzzer for fuzz.sh: the bytes as a bundle, an XML file, a selector, a list of names or calls,
   by macro. */
#include <assert.h>
#include <stdarg.h>
#include <stdlib.h>
#include <string.h>

#include "bundle.h"
#include "commands.h"
#include "document.h"
#include "limit.h"
#include "spinebriar.h"

int LLVMFuzzerTestOneInput(const uint8_t *data, size_t size);

static const char LIST[] = "log\nmark\nzero\n\nrun\nlog\nserial";
static struct names names;
static FILE *sink;

/* In the place of complain.c's: standard error is libFuzzer's. The message is made all the same. */
void complain(const char *format, ...)
{
    char message[1024];
    va_list rest;
    va_start(rest, format);
    vsnprintf(message, sizeof message, format, rest);
    va_end(rest);
}

static void prepare(void)
{
    struct bytes list = {malloc(sizeof LIST), sizeof LIST - 1};
    sink = fopen("/dev/null", "w");
    assert(list.at != NULL && sink != NULL);
    memcpy(list.at, LIST, sizeof LIST);
    assert(names_of(list, &names));
}

#if defined FUZZ_XML || defined FUZZ_SELECTOR
/* What select makes of a selector on a document, with few visits. */
static void try_select(const struct document *document, const char *selector, uint32_t from)
{
    struct options options = {.selector = selector, .from = from, .limited = true, .limit = 100000};
    uint8_t marks[SPINEBRIAR_MOST_NODES] = {0};
    int status = select_nodes(document, &names, &options, marks);
    assert(status == YES || status == NO);
    if (status == YES) {
        print_nodes(document, &names, marks, sink);
    }
}
#endif

#ifdef FUZZ_BUNDLE
/* The lines up to the refused one are refused with the same number. */
static void check_line(const uint8_t *data, size_t size, uint16_t answer)
{
    size_t line = 0;
    assert(spinebriar_read_line(data, size, &line) == answer);
    size_t end = line_start(data, size, line + 1);
    assert(line >= 1 && line <= lines_in(data, size) + 1);
    assert(spinebriar_read(data, end) == answer);
}

static bool is_step_row(struct row row, uint16_t axis, uint16_t test, uint16_t name)
{
    return row.kind == STEP_ROW && row.a == axis && row.b == test && row.c == name;
}

/* Whether a step has the rows of child::mark and descendant::*. */
static bool says_mark(const uint8_t *data, size_t size)
{
    static struct bundle bundle;
    bool says = false;
    parse_bundle(data, size, &bundle);
    for (size_t i = 0; i < bundle.step_count; i++) {
        struct row left = bundle.rows[bundle.steps[i].left], right = bundle.rows[bundle.steps[i].right];
        says = says || (is_step_row(left, 1, 0, 2) && is_step_row(right, 3, 1, 0));
    }
    return says;
}

static void one(const uint8_t *data, size_t size)
{
    struct bytes bundle = {(uint8_t *)data, size};
    uint16_t answer = spinebriar_read(data, size);
    int wanted = answer == SPINEBRIAR_ACCEPTED && size <= SPINEBRIAR_MOST_BYTES ? YES : NO;
    assert(check_bytes(bundle, &names, sink) == wanted && explain_bytes(bundle, &names, sink) == wanted);
    int claimed = wanted == YES && says_mark(data, size) ? YES : NO;
    assert(claim_bytes(bundle, &names, "mark", "descendant::*", sink) == claimed);
    if (answer != SPINEBRIAR_ACCEPTED && size <= SPINEBRIAR_MOST_BYTES) {
        check_line(data, size, answer);
    }
}
#elif defined FUZZ_XML
/* The rows are a document: docs/FORMAT.md has what is asked of it. */
static void check_rows(const struct document *document)
{
    const struct node *nodes = document->nodes;
    assert(document->count >= 1 && document->count <= SPINEBRIAR_MOST_NODES);
    assert(nodes[0].kind == ROOT && nodes[0].parent == 0 && nodes[0].name == 0);
    for (size_t i = 1; i < document->count; i++) {
        size_t above = i - 1;
        while (above != nodes[i].parent && above != 0) {
            above = nodes[above].parent;
        }
        bool named = nodes[i].kind == ELEMENT || nodes[i].kind == INSTRUCTION || nodes[i].kind == ATTRIBUTE;
        assert(above == nodes[i].parent && nodes[above].kind <= ELEMENT && (nodes[i].name != 0) == named);
        assert(nodes[i].kind >= ELEMENT && nodes[i].kind <= ATTRIBUTE);
        if (nodes[i].kind == ATTRIBUTE) {
            bool follows = nodes[i - 1].kind == ATTRIBUTE && nodes[i - 1].parent == above;
            assert(nodes[above].kind == ELEMENT && (above == i - 1 || follows));
        }
    }
}

static void one(const uint8_t *data, size_t size)
{
    static struct document document;
    FILE *file = size > 0 ? fmemopen((void *)data, size, "rb") : NULL;
    for (int i = 0; file != NULL && i < 4; i++) {
        struct document_options options = {.add = i & 1, .local_names = i & 2};
        rewind(file);
        if (read_document(file, "fuzz", &names, options, &document) == YES) {
            check_rows(&document);
            try_select(&document, "//node()|//@*", (uint32_t)(size % SPINEBRIAR_MOST_NODES));
            try_select(&document, "mark/following::node()[ancestor::log]", 0);
        }
        free_document(&document);
    }
    if (file != NULL) {
        fclose(file);
    }
}
#elif defined FUZZ_SELECTOR
static void one(const uint8_t *data, size_t size)
{
    static const struct document LOG = {
        .count = 7, .nodes = {{0, 0, 0}, {1, 0, 1}, {1, 1, 2}, {2, 2, 0}, {1, 1, 3}, {5, 4, 7}, {4, 1, 5}}};
    static const char ROWS[] = "kind a b c\nrule left right first second\n";
    struct bytes empty = {(uint8_t *)ROWS, sizeof ROWS - 1};
    char *selector = strndup((const char *)data, size);
    assert(selector != NULL && default_limit(selector, LOG.count) > 0);
    for (uint32_t from = 0; from <= LOG.count; from++) {
        try_select(&LOG, selector, from);
    }
    assert(claim_bytes(empty, &names, selector, selector, sink) == NO);
    free(selector);
}
#elif defined FUZZ_NAMES
/* The archive has the same number for `mark`, or none. */
static void check_mark(const struct names *list)
{
    uint16_t number = number_of(list, "mark", 4);
    uint16_t rows[] = {0, 0, 0, 1, 0, number == 0 ? 1 : number};
    uint8_t marks[] = {0, 0};
    size_t value;
    uint16_t answer = spinebriar_select(list->file.at, list->file.length, (const uint8_t *)"mark", 4, rows, 6, 0, 9,
                                        marks, 2, &value);
    assert(answer == (number == 0 ? SPINEBRIAR_UNLISTED_NAME : SPINEBRIAR_ACCEPTED));
    assert(marks[1] == (number != 0));
}

/* A list's numbers are those of its names, also where names are added. */
static void one(const uint8_t *data, size_t size)
{
    struct bytes file = {malloc(size + 1), size};
    struct names list;
    assert(file.at != NULL);
    memcpy(file.at, data, size);
    assert(names_of(file, &list));
    check_mark(&list);
    for (size_t number = 0; number <= list.lines && number <= SPINEBRIAR_MOST_NUMBER; number++) {
        const struct name *name = name_of(&list, (uint16_t)number);
        assert(name == NULL || number_of(&list, name->text, name->length) == number);
    }
    struct name added = {"mark", 4, 0};
    size_t lines = list.lines;
    bool listed = number_of(&list, "mark", 4) != 0;
    assert(extend_names(&list, &added, 1) && list.stored == size && list.lines == lines + 1);
    assert(listed || lines >= SPINEBRIAR_MOST_NUMBER || number_of(&list, "mark", 4) == lines + 1);
    check_mark(&list);
    free_names(&list);
}
#else
/* What is filed is accepted. */
static void one(const uint8_t *data, size_t size)
{
    struct bytes calls = {(uint8_t *)data, size};
    struct bytes bundle = {NULL, 0};
    FILE *out = open_memstream((char **)&bundle.at, &bundle.length);
    assert(out != NULL);
    int status = file_bytes(calls, "fuzz", out);
    fclose(out);
    assert(status == YES ? check_bytes(bundle, &names, sink) == YES : bundle.length == 0);
    free(bundle.at);
}
#endif

int LLVMFuzzerTestOneInput(const uint8_t *data, size_t size)
{
    if (sink == NULL) {
        prepare();
    }
    one(data, size);
    return 0;
}
