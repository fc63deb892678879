/* Measures the proved read and write against the reference's on one bundle, and the proved selection against libxml2's
 * XPath with compiled expressions on a document nested 500 levels and on a flat one: on a tree that stands already, and
 * with the parsing of the document's text. Then the longest time of one visit. After the bundle, one term call and one
 * step call by rules 2 and 59, and the orders of two rows and of two bundles. Then texts of 65,536 bytes. The archive's
 * calls and the program replay stand beside those of an older commit, where run.sh is given one. Prints tables in
 * Markdown. run.sh builds and runs it. */

#define _POSIX_C_SOURCE 200809L
#include "spinebriar.h"
#include <ctype.h>
#include <fcntl.h>
#include <libxml/parser.h>
#include <libxml/tree.h>
#include <libxml/xpath.h>
#include <spawn.h>
#include <stdbool.h>
#include <stdio.h>
#include <stdlib.h>
#include <string.h>
#include <sys/wait.h>
#include <time.h>

/* crates/bench_select: rows are four numbers each, a document's nodes three; counts are of numbers. */
typedef uint16_t Select(const uint16_t *rows, size_t row_numbers, uint16_t row, const uint16_t *document,
                        size_t document_numbers, uint16_t context, uint32_t limit, uint8_t *marks, size_t room);
Select bench_select;

typedef size_t Write(uint8_t *out, size_t room, const uint16_t *rows, size_t row_numbers, size_t row_count,
                     const uint16_t *steps, size_t step_numbers, size_t step_count);
Write bench_write;

/* The same of an older commit, where its archive is there. */
#ifdef OLD_ARCHIVE
Select old_bench_select;
Write old_bench_write;
static Select *const OLD_SELECT = old_bench_select;
static Write *const OLD_WRITE = old_bench_write;
#else
static Select *const OLD_SELECT;
static Write *const OLD_WRITE;
#endif

uint32_t bench_order(const uint16_t *left, size_t left_numbers, uint16_t i, const uint16_t *right, size_t right_numbers,
                     uint16_t j);

uint32_t bench_bundle_order(const uint16_t *left, size_t left_numbers, const uint16_t *left_steps,
                            size_t left_step_numbers, const uint16_t *right, size_t right_numbers,
                            const uint16_t *right_steps, size_t right_step_numbers);

/* The number of the answer to a selector as text where no row is held. */
uint16_t bench_text(const uint8_t *names, size_t names_length, const uint8_t *selector, size_t length);

/* tools/reference/src/c.rs */
uint16_t reference_read(const uint8_t *bytes, size_t length);
void *reference_held(const uint8_t *bytes, size_t length);
uint64_t reference_write(const void *book, uint8_t *out, size_t room);
void *reference_book(const uint16_t *rows, size_t count);
uint16_t reference_select(const void *book, uint16_t row, const uint16_t *document, size_t nodes, uint16_t context,
                          uint32_t limit, uint8_t *marks);

enum { NODES = 512, DEPTH = 500, SAMPLES = 101, MOST_ROWS = 8 };
static const double SAMPLE_SECONDS = 0.0002;

static void check(bool ok, const char *what) {
    if (ok) return;
    fprintf(stderr, "bench: %s\n", what);
    exit(1);
}

/* Time */

typedef void Call(const void *);

static double now(void) {
    struct timespec t;
    clock_gettime(CLOCK_MONOTONIC, &t);
    return (double)t.tv_sec + (double)t.tv_nsec * 1e-9;
}

/* Seconds for one of n calls. */
static double sample(Call *call, const void *of, long n) {
    double start = now();
    for (long i = 0; i < n; i++) call(of);
    return (now() - start) / (double)n;
}

static int by_size(const void *x, const void *y) {
    double a = *(const double *)x, b = *(const double *)y;
    return (a > b) - (a < b);
}

typedef struct {
    Call *call;
    long n;
    double samples[SAMPLES];
} Timing;

/* Times the sides in turns, so that what else the machine does falls on all alike. Samples are sorted. */
static void measure(Timing *sides, int count, const void *of) {
    for (int i = 0; i < count; i++)
        for (sides[i].n = 1; sample(sides[i].call, of, sides[i].n) * (double)sides[i].n < SAMPLE_SECONDS;) sides[i].n *= 2;
    for (int s = 0; s < SAMPLES; s++)
        for (int i = 0; i < count; i++) sides[i].samples[s] = sample(sides[i].call, of, sides[i].n);
    for (int i = 0; i < count; i++) qsort(sides[i].samples, SAMPLES, sizeof(double), by_size);
}

static double min_us(const Timing *t) { return t->samples[0] * 1e6; }

static double median_us(const Timing *t) { return t->samples[SAMPLES / 2] * 1e6; }

/* min and median of the peer and of ours in microseconds, and the ratios ours / the peer's. */
static void print_timings(const Timing *peer, const Timing *ours) {
    printf(" %.2f | %.2f | %.2f | %.2f | %.2f | %.2f |\n", min_us(peer), median_us(peer), min_us(ours), median_us(ours),
           min_us(ours) / min_us(peer), median_us(ours) / median_us(peer));
}

/* The text, with the mark that would end a table's cell escaped. */
static void print_cell(const char *text) {
    for (; *text; text++) printf(*text == '|' ? "\\|" : "%c", *text);
}

/* read */

typedef struct {
    uint8_t *bytes;
    size_t length;
} Bundle;

static void run_reference_read(const void *of) {
    const Bundle *bundle = of;
    check(reference_read(bundle->bytes, bundle->length) == 0, "the reference refuses the bundle");
}

static void run_read(const void *of) {
    const Bundle *bundle = of;
    check(spinebriar_read(bundle->bytes, bundle->length) == 0, "the bundle is refused");
}

static void bench_bundle(const char *what, Bundle bundle) {
    Timing sides[2] = {{.call = run_reference_read}, {.call = run_read}};
    measure(sides, 2, &bundle);
    printf("| %s, %zu bytes |", what, bundle.length);
    print_timings(&sides[0], &sides[1]);
}

/* write: the numbers of the bundle's lines, and a buffer for each side */

enum { ROW_NUMBERS = 4 * 1024, STEP_NUMBERS = 5 * 2048, ROOM = 65536 };

typedef struct {
    Bundle bundle;
    const void *book;
    uint16_t rows[ROW_NUMBERS], steps[STEP_NUMBERS];
    size_t row_numbers, step_numbers;
    uint8_t *theirs, *ours;
} Held;

static void run_reference_write(const void *of) {
    const Held *held = of;
    size_t length = reference_write(held->book, held->theirs, ROOM);
    check(length == held->bundle.length, "the reference writes another length");
}

static void write_with(Write *write, const Held *held) {
    size_t length = write(held->ours, ROOM, held->rows, held->row_numbers, held->row_numbers / 4, held->steps,
                          held->step_numbers, held->step_numbers / 5);
    check(length == held->bundle.length, "another length is written");
}

static void run_write(const void *of) { write_with(bench_write, of); }

static void run_old_write(const void *of) { write_with(OLD_WRITE, of); }

/* The numbers of the lines from `at` up to `end`. */
static size_t numbers_of(const char *at, const char *end, uint16_t *numbers, size_t most) {
    size_t count = 0;
    for (char *next; at < end; at = next) {
        unsigned long n = strtoul(at, &next, 10);
        if (next == at) break;
        check(count < most, "too many numbers in the bundle");
        numbers[count++] = (uint16_t)n;
    }
    return count;
}

static size_t without_steps(const char *text);

static void bench_write_bundle(Bundle bundle) {
    static Held held;
    static uint8_t theirs[ROOM], ours[ROOM];
    const char *text = (const char *)bundle.bytes, *steps = text + without_steps(text);
    held = (Held){.bundle = bundle, .theirs = theirs, .ours = ours};
    held.book = reference_held(bundle.bytes, bundle.length);
    held.row_numbers = numbers_of(strchr(text, '\n') + 1, steps, held.rows, ROW_NUMBERS);
    held.step_numbers = numbers_of(steps, text + bundle.length, held.steps, STEP_NUMBERS);
    Timing sides[2] = {{.call = run_reference_write}, {.call = run_write}};
    measure(sides, 2, &held);
    check(memcmp(theirs, bundle.bytes, bundle.length) == 0, "the reference writes other bytes");
    check(memcmp(ours, bundle.bytes, bundle.length) == 0, "other bytes are written");
    printf("\nWriting it, in microseconds:\n\n");
    printf("| bundle | reference min | median | ours min | median | ratio of min | of median |\n");
    printf("|---|---|---|---|---|---|---|\n");
    printf("| 1,024 rows and 2,048 steps, %zu bytes |", bundle.length);
    print_timings(&sides[0], &sides[1]);
    if (!OLD_WRITE) return;
    Timing beside[2] = {{.call = run_old_write}, {.call = run_write}};
    measure(beside, 2, &held);
    printf("| the same, beside the older commit |");
    print_timings(&beside[0], &beside[1]);
}

/* The length up to the end of the second names line. */
static size_t without_steps(const char *text) {
    static const char names[] = "rule left right first second\n";
    const char *at = strstr(text, names);
    check(at != NULL, "no steps in the bundle");
    return (size_t)(at - text) + strlen(names);
}

static void bench_read(const char *file) {
    static uint8_t bytes[1 << 20];
    FILE *in = fopen(file, "rb");
    check(in != NULL, "no bundle");
    size_t length = fread(bytes, 1, sizeof bytes - 1, in);
    fclose(in);
    printf("Reading a bundle, in microseconds:\n\n");
    printf("| bundle | reference min | median | ours min | median | ratio of min | of median |\n|---|---|---|---|---|---|---|\n");
    bench_bundle("1,024 rows and 2,048 steps", (Bundle){bytes, length});
    bench_bundle("its rows alone", (Bundle){bytes, without_steps((const char *)bytes)});
    bench_write_bundle((Bundle){bytes, length});
}

/* One call of a bundle */

typedef struct {
    char text[65536 + 64];
    size_t length;
    int rows;
} Text;

static void add_line(Text *t, const char *line) {
    size_t length = strlen(line);
    check(t->length + length < sizeof t->text, "the bundle is too long");
    memcpy(t->text + t->length, line, length + 1);
    t->length += length;
}

/* Adds a row; its number. */
static int add_row(Text *t, int kind, int a, int b, int c) {
    char line[64];
    snprintf(line, sizeof line, "%d %d %d %d\n", kind, a, b, c);
    if (t->length == 0) add_line(t, "kind a b c\n");
    add_line(t, line);
    return t->rows++;
}

/* A path and its way back. */
typedef struct {
    int path, back;
} Pair;

/* child::NAME */
static Pair add_child(Text *t, int parent, int name) {
    int self = add_row(t, 2, 0, 0, name);
    return (Pair){add_row(t, 2, 1, 0, name), add_row(t, 4, self, parent, 0)};
}

static Pair compose(Text *t, Pair p, Pair q) {
    return (Pair){add_row(t, 4, p.path, q.path, 0), add_row(t, 4, q.back, p.back, 0)};
}

/* levels compositions, each of the one before with itself: 2^levels leaves */
static Pair doubled(Text *t, int levels) {
    Pair p = add_child(t, add_row(t, 2, 2, 2, 0), 1);
    for (int i = 0; i < levels; i++) p = compose(t, p, p);
    return p;
}

/* a composition of count steps, no two the same, put together two by two */
static Pair balanced(Text *t, int parent, int first, int count) {
    if (count == 1) return add_child(t, parent, first);
    Pair p = balanced(t, parent, first, count / 2);
    return compose(t, p, balanced(t, parent, first + count / 2, count - count / 2));
}

static double read_us(const Text *t, double *median) {
    Timing side = {.call = run_read};
    Bundle bundle = {(uint8_t *)t->text, t->length};
    measure(&side, 1, &bundle);
    *median = median_us(&side);
    return min_us(&side);
}

/* One of the calls by which two bundles differ. */
static void print_difference(const char *what, const Text *with, const Text *without, int calls) {
    double median[2], min[2] = {read_us(without, &median[0]), read_us(with, &median[1])};
    printf("| %s | %.2f | %.2f |\n", what, (min[1] - min[0]) / calls, (median[1] - median[0]) / calls);
}

/* A step from no premise, made `steps` times, beside the same rows with no step. */
static void bench_step(const char *what, const Text *t, int steps, int rule, int left, int right) {
    static Text with;
    char line[64];
    with = *t;
    snprintf(line, sizeof line, "%d %d %d 0 0\n", rule, left, right);
    for (int i = 0; i < steps; i++) add_line(&with, line);
    print_difference(what, &with, t, steps);
}

/* A step by rule 59, r <= r[some w]: one, and many, of which the first alone goes through the rows of r. */
static void bench_way_back(const char *one, const char *many, Text *t, Pair p) {
    int inside = add_row(t, 11, p.back, add_row(t, 0, 0, 0, 0), 0);
    int right = add_row(t, 5, p.path, add_row(t, 8, inside, 0, 0), 0);
    add_line(t, "rule left right first second\n");
    bench_step(one, t, 1, 59, p.path, right);
    bench_step(many, t, 2048, 59, p.path, right);
}

static void bench_calls(void) {
    enum { ROWS = 1024, LAST = 256 };
    static Text fewer, full, same, deep, wide;
    printf("\nOne call of a bundle, in microseconds:\n\n| call | min | median |\n|---|---|---|\n");
    for (int i = 0; i < ROWS; i++) {
        if (i < ROWS - LAST) add_row(&fewer, 2, 1, 0, i + 1);
        add_row(&full, 2, 1, 0, i + 1);
    }
    add_line(&fewer, "rule left right first second\n");
    add_line(&full, "rule left right first second\n");
    print_difference("a term, the last 256 of 1,024 rows", &full, &fewer, LAST);
    int row = add_row(&same, 2, 1, 0, 1);
    add_line(&same, "rule left right first second\n");
    bench_step("a step by rule 2", &same, 2048, 2, row, row);
    bench_way_back("a step by rule 59 of 27 compositions, each of the one before with itself: 2^27 leaves, 62 rows",
                   "each of 2,048 such steps", &deep, doubled(&deep, 27));
    bench_way_back("a step by rule 59 of a path of 128 steps, no two the same: 643 rows", "each of 2,048 such steps",
                   &wide, balanced(&wide, add_row(&wide, 2, 2, 2, 0), 1, 128));
}

/* Orders */

typedef struct {
    uint16_t rows[ROW_NUMBERS], steps[STEP_NUMBERS];
    size_t row_numbers, step_numbers;
} Table;

typedef struct {
    Table left, right;
    int i, j; /* the rows that are compared */
} Tables;

static int put_row(Table *t, int kind, int a, int b, int c) {
    int row = (int)(t->row_numbers / 4), numbers[] = {kind, a, b, c};
    check(t->row_numbers < ROW_NUMBERS, "too many rows");
    for (int k = 0; k < 4; k++) t->rows[t->row_numbers++] = (uint16_t)numbers[k];
    return row;
}

/* The composition of the steps child::1 to child::COUNT, put together two by two, from the left or from the right. */
static int put_balanced(Table *t, int first, int count, bool from_right) {
    if (count == 1) return put_row(t, 2, 1, 0, first);
    int half = count / 2, rows[2];
    for (int k = 0; k < 2; k++) {
        bool second = (k == 1) != from_right;
        rows[second] = put_balanced(t, second ? first + half : first, second ? count - half : half, from_right);
    }
    return put_row(t, 4, rows[0], rows[1], 0);
}

static int put_doubled(Table *t, int row, int levels) {
    for (int k = 0; k < levels; k++) row = put_row(t, 4, row, row, 0);
    return row;
}

/* Steps by rule 2, of a row with itself. */
static void put_steps(Table *t, int row) {
    while (t->step_numbers < STEP_NUMBERS) {
        uint16_t step[] = {2, (uint16_t)row, (uint16_t)row, 0, 0};
        memcpy(t->steps + t->step_numbers, step, sizeof step);
        t->step_numbers += 5;
    }
}

static void run_order(const void *of) {
    const Tables *t = of;
    uint32_t order = bench_order(t->left.rows, t->left.row_numbers, (uint16_t)t->i, t->right.rows, t->right.row_numbers,
                                 (uint16_t)t->j);
    check(order == 1, "the terms are not equal");
}

static void run_bundle_order(const void *of) {
    const Tables *t = of;
    uint32_t order = bench_bundle_order(t->left.rows, t->left.row_numbers, t->left.steps, t->left.step_numbers,
                                        t->right.rows, t->right.row_numbers, t->right.steps, t->right.step_numbers);
    check(order == 1, "the bundles are not equal");
}

static void print_order(const char *what, Call *call, const Tables *tables) {
    Timing side = {.call = call};
    measure(&side, 1, tables);
    printf("| %s | %.2f | %.2f |\n", what, min_us(&side), median_us(&side));
}

static void bench_orders(void) {
    static Tables deep, wide;
    printf("\nOrders, in microseconds:\n\n| compared | min | median |\n|---|---|---|\n");
    deep.i = put_doubled(&deep.left, put_row(&deep.left, 2, 1, 0, 1), 31);
    put_row(&deep.right, 1, 0, 0, 0);
    deep.j = put_doubled(&deep.right, put_row(&deep.right, 2, 1, 0, 1), 31);
    print_order("31 compositions, each of the one before with itself: 2^31 leaves, 32 rows; equal", run_order, &deep);
    wide.i = put_balanced(&wide.left, 1, 512, false);
    wide.j = put_balanced(&wide.right, 1, 512, true);
    print_order("a path of 512 steps, no two the same: 1,023 rows, numbered differently; equal", run_order, &wide);
    put_steps(&wide.left, wide.i);
    put_steps(&wide.right, wide.j);
    print_order("two bundles of these rows and 2,048 steps; equal", run_bundle_order, &wide);
}

/* Documents */

typedef struct {
    const char *name;
    uint16_t rows[NODES][3];
    xmlDocPtr tree;
    xmlNodePtr nodes[NODES];
    xmlChar *text; /* the same document as XML */
    int text_length;
} Document;

static const char *const NAMES[] = {"", "e1", "e2", "e3"};

static void put(Document *d, int n, int kind, int parent, int name) {
    d->rows[n][0] = (uint16_t)kind;
    d->rows[n][1] = (uint16_t)parent;
    d->rows[n][2] = (uint16_t)name;
}

/* A row of any kind, the kinds and names in turn. */
static void put_any(Document *d, int n, int parent) {
    static const int kinds[] = {1, 1, 2, 1, 3, 1, 4}, names[] = {1, 2, 0, 3, 0, 1, 0};
    put(d, n, kinds[n % 7], parent, names[n % 7]);
}

/* DEPTH elements one in the other, and the other rows at the ends of some of them. */
static void make_nested(Document *d) {
    d->name = "nested";
    for (int n = 1; n <= DEPTH; n++) put(d, n, 1, n - 1, n % 50 == 0 ? 3 : 1 + n % 2);
    for (int n = DEPTH + 1; n < NODES; n++) put_any(d, n, DEPTH - 1 - 49 * (n - DEPTH - 1));
}

/* One element with all other rows for its children. */
static void make_flat(Document *d) {
    d->name = "flat";
    put(d, 1, 1, 0, 1);
    for (int n = 2; n < NODES; n++) put_any(d, n, 1);
}

static xmlNodePtr new_node(xmlDocPtr tree, const uint16_t *row) {
    switch (row[0]) {
    case 1: return xmlNewDocNode(tree, NULL, (const xmlChar *)NAMES[row[2]], NULL);
    case 2: return xmlNewDocText(tree, (const xmlChar *)"t");
    case 3: return xmlNewDocComment(tree, (const xmlChar *)"c");
    default: return xmlNewDocPI(tree, (const xmlChar *)"i", NULL);
    }
}

/* The same document as libxml2's tree. A node's number is kept in _private. */
static void make_tree(Document *d) {
    d->tree = xmlNewDoc((const xmlChar *)"1.0");
    d->nodes[0] = (xmlNodePtr)d->tree;
    for (long n = 1; n < NODES; n++) {
        d->nodes[n] = xmlAddChild(d->nodes[d->rows[n][1]], new_node(d->tree, d->rows[n]));
        check(d->nodes[n] != NULL, "no node");
    }
    for (long n = 0; n < NODES; n++) d->nodes[n]->_private = (void *)n;
    xmlXPathOrderDocElems(d->tree);
    xmlDocDumpMemory(d->tree, &d->text, &d->text_length);
}

/* The node after this one in document order. */
static xmlNodePtr next_node(xmlNodePtr node) {
    if (node->children) return node->children;
    while (!node->next) node = node->parent;
    return node->next;
}

/* select */

typedef struct {
    const char *xpath;
    uint16_t nested, flat; /* the context node in each document */
    uint16_t rows[MOST_ROWS][4];
    int count; /* the last of these rows is the path */
} Selector;

static const Selector SELECTORS[] = {
    {"self::node()", 250, 256, {{2, 0, 2, 0}}, 1},
    {"child::node()", 1, 1, {{2, 1, 2, 0}}, 1},
    {"parent::*", 500, 511, {{2, 2, 1, 0}}, 1},
    {"descendant::e1", 0, 0, {{2, 3, 0, 1}}, 1},
    {"ancestor::*", 500, 511, {{2, 4, 1, 0}}, 1},
    {"descendant-or-self::node()", 0, 0, {{2, 5, 2, 0}}, 1},
    {"ancestor-or-self::e2", 500, 511, {{2, 6, 0, 2}}, 1},
    {"following-sibling::node()", 10, 2, {{2, 7, 2, 0}}, 1},
    {"preceding-sibling::*", 511, 511, {{2, 8, 1, 0}}, 1},
    {"following::e1", 250, 256, {{2, 9, 0, 1}}, 1},
    {"preceding::node()", 511, 511, {{2, 10, 2, 0}}, 1},
    {"/descendant::text()", 511, 511, {{1, 0, 0, 0}, {2, 3, 3, 0}, {4, 0, 1, 0}}, 3},
    {"descendant::e1/child::e2", 0, 0, {{2, 3, 0, 1}, {2, 1, 0, 2}, {4, 0, 1, 0}}, 3},
    {"descendant::e1 | descendant::comment()", 0, 0, {{2, 3, 0, 1}, {2, 3, 4, 0}, {3, 0, 1, 0}}, 3},
    {"descendant::*[child::text()]", 0, 0,
     {{2, 3, 1, 0}, {2, 1, 3, 0}, {0, 0, 0, 0}, {11, 1, 2, 0}, {8, 3, 0, 0}, {5, 0, 4, 0}}, 6},
    {"descendant::e3/preceding::e2", 0, 0, {{2, 3, 0, 3}, {2, 10, 0, 2}, {4, 0, 1, 0}}, 3},
    {"descendant::e3/following::node()", 0, 0, {{2, 3, 0, 3}, {2, 9, 2, 0}, {4, 0, 1, 0}}, 3},
};

typedef struct {
    const Selector *selector;
    const Document *document;
    uint16_t context;
    xmlXPathCompExprPtr expression;
    xmlXPathContextPtr evaluation;
} Selection;

static const uint32_t LIMIT = UINT32_MAX;

static uint16_t select_with(Select *select, const Selection *s, uint8_t *marks) {
    uint16_t row = (uint16_t)(s->selector->count - 1);
    return select(s->selector->rows[0], 4 * (size_t)s->selector->count, row, s->document->rows[0], 3 * NODES, s->context,
                  LIMIT, marks, NODES);
}

static uint16_t our_select(const Selection *s, uint8_t *marks) { return select_with(bench_select, s, marks); }

static void run_select(const void *of) {
    uint8_t marks[NODES];
    check(our_select(of, marks) == 0, "a selection is refused");
}

static void run_old_select(const void *of) {
    uint8_t marks[NODES];
    check(select_with(OLD_SELECT, of, marks) == 0, "a selection is refused");
}

static xmlXPathObjectPtr evaluate(const Selection *s) {
    s->evaluation->node = s->document->nodes[s->context];
    xmlXPathObjectPtr result = xmlXPathCompiledEval(s->expression, s->evaluation);
    check(result && result->type == XPATH_NODESET, "libxml2 gives no node set");
    return result;
}

static void run_libxml2(const void *of) { xmlXPathFreeObject(evaluate(of)); }

static xmlDocPtr parse(const Document *d) {
    xmlDocPtr tree = xmlReadMemory((const char *)d->text, d->text_length, NULL, NULL, XML_PARSE_HUGE);
    check(tree != NULL, "libxml2 refuses the document's text");
    return tree;
}

/* Parses the text, finds the context node and evaluates the compiled expression; how many nodes it selects. */
static int parse_and_evaluate(const Selection *s) {
    xmlDocPtr tree = parse(s->document);
    xmlXPathOrderDocElems(tree);
    xmlXPathContextPtr evaluation = xmlXPathNewContext(tree);
    evaluation->node = (xmlNodePtr)tree;
    for (int n = 0; n < s->context; n++) evaluation->node = next_node(evaluation->node);
    xmlXPathObjectPtr result = xmlXPathCompiledEval(s->expression, evaluation);
    check(result && result->type == XPATH_NODESET, "libxml2 gives no node set");
    int selected = result->nodesetval ? result->nodesetval->nodeNr : 0;
    xmlXPathFreeObject(result);
    xmlXPathFreeContext(evaluation);
    xmlFreeDoc(tree);
    return selected;
}

static void run_parse_and_evaluate(const void *of) { parse_and_evaluate(of); }

/* Sees that libxml2, the reference and the proved selection mark the same nodes; how many. */
static int compare_marks(const Selection *s) {
    uint8_t theirs[NODES] = {0}, plain[NODES], ours[NODES];
    xmlXPathObjectPtr result = evaluate(s);
    int selected = result->nodesetval ? result->nodesetval->nodeNr : 0;
    for (int i = 0; i < selected; i++) theirs[(long)result->nodesetval->nodeTab[i]->_private] = 1;
    xmlXPathFreeObject(result);
    void *book = reference_book(s->selector->rows[0], (size_t)s->selector->count);
    uint16_t row = (uint16_t)(s->selector->count - 1);
    check(reference_select(book, row, s->document->rows[0], NODES, s->context, LIMIT, plain) == 0, "a selection is refused");
    check(memcmp(plain, theirs, NODES) == 0, s->selector->xpath);
    check(our_select(s, ours) == 0 && memcmp(ours, theirs, NODES) == 0, s->selector->xpath);
    return selected;
}

static void bench_selectors(const Document *d, Call *theirs) {
    xmlXPathContextPtr evaluation = xmlXPathNewContext(d->tree);
    for (size_t i = 0; i < sizeof SELECTORS / sizeof SELECTORS[0]; i++) {
        const Selector *selector = &SELECTORS[i];
        uint16_t context = strcmp(d->name, "nested") == 0 ? selector->nested : selector->flat;
        Selection s = {selector, d, context, xmlXPathCompile((const xmlChar *)selector->xpath), evaluation};
        int selected = compare_marks(&s);
        check(parse_and_evaluate(&s) == selected, "the document's text has another selection");
        Timing sides[2] = {{.call = theirs}, {.call = run_select}};
        measure(sides, 2, &s);
        printf("| %s | ", d->name);
        print_cell(selector->xpath);
        printf(" from %d | %d |", context, selected);
        print_timings(&sides[0], &sides[1]);
        xmlXPathFreeCompExpr(s.expression);
    }
    xmlXPathFreeContext(evaluation);
}

static void bench_documents(const Document *documents, Call *theirs, const char *what) {
    printf("\nSelecting on documents of %d nodes, %s, in microseconds:\n\n", NODES, what);
    printf("| document | selector | nodes | libxml2 min | median | ours min | median | ratio of min | of median |\n");
    printf("|---|---|---|---|---|---|---|---|---|\n");
    for (int i = 0; i < 2; i++) bench_selectors(&documents[i], theirs);
}

/* Beside an older commit's archive, where it is there. */
static void bench_selectors_beside_old(const Document *d) {
    for (size_t i = 0; i < sizeof SELECTORS / sizeof SELECTORS[0]; i++) {
        uint16_t context = strcmp(d->name, "nested") == 0 ? SELECTORS[i].nested : SELECTORS[i].flat;
        Selection s = {&SELECTORS[i], d, context, NULL, NULL};
        uint8_t theirs[NODES], ours[NODES];
        check(select_with(OLD_SELECT, &s, theirs) == 0 && our_select(&s, ours) == 0, "a selection is refused");
        check(memcmp(theirs, ours, NODES) == 0, "the older commit selects other nodes");
        Timing sides[2] = {{.call = run_old_select}, {.call = run_select}};
        measure(sides, 2, &s);
        printf("| %s | ", d->name);
        print_cell(SELECTORS[i].xpath);
        printf(" from %d |", context);
        print_timings(&sides[0], &sides[1]);
    }
}

static void bench_documents_beside_old(const Document *documents) {
    if (!OLD_SELECT) return;
    printf("\nSelecting on documents of %d nodes beside the older commit, in microseconds:\n\n", NODES);
    printf("| document | selector | old min | median | ours min | median | ratio of min | of median |\n");
    printf("|---|---|---|---|---|---|---|---|\n");
    for (int i = 0; i < 2; i++) bench_selectors_beside_old(&documents[i]);
}

/* The void path on the same document, for which libxml2 has no expression: what a call costs beside the evaluation. */
static void run_void(const void *of) {
    static const Selector nothing = {"", 0, 0, {{0, 0, 0, 0}}, 1};
    const Selection *s = of;
    Selection v = {&nothing, s->document, 0, NULL, NULL};
    run_select(&v);
}

static void bench_void(const Document *d) {
    Selection s = {NULL, d, 0, NULL, NULL};
    Timing side = {.call = run_void};
    measure(&side, 1, &s);
    printf("| %s | %.2f | %.2f |\n", d->name, min_us(&side), median_us(&side));
}

/* The longest time of one visit */

/* Elements one in the other. */
static void make_chain(Document *d) {
    d->name = "chain";
    for (int n = 1; n < NODES; n++) put(d, n, 1, n - 1, 1);
}

/* Elements under the root. */
static void make_star(Document *d) {
    d->name = "star";
    for (int n = 1; n < NODES; n++) put(d, n, 1, 0, 1);
}

/* Elements one in the other, and one more under each. */
static void make_comb(Document *d) {
    d->name = "comb";
    for (int n = 1; n < NODES; n++) put(d, n, 1, n % 2 ? (n > 1 ? n - 2 : 0) : n - 1, 1);
}

static const char *const AXES[] = {"self", "child", "parent", "descendant", "ancestor", "descendant-or-self", "ancestor-or-self",
                                   "following-sibling", "preceding-sibling", "following", "preceding"};
enum { AXIS_COUNT = sizeof AXES / sizeof AXES[0] };

/* Microseconds of a visit: what a call that makes so many takes beyond the void path's. The least of some rounds, since what else the
 * machine does only adds. */
static double visit_us(const Selection *s, double visits) {
    double least = 1e9;
    for (int round = 0; round < 3; round++) {
        Timing sides[2] = {{.call = run_select}, {.call = run_void}};
        measure(sides, 2, s);
        double time = (min_us(&sides[0]) - min_us(&sides[1])) / visits;
        if (time < least) least = time;
    }
    return least < 0 ? 0 : least;
}

/* One step from the nodes along the document: one visit. */
static double longest_step(const Document *d, int axis, int *from) {
    double longest = -1;
    for (int context = 0; context < NODES; context = 8 * context + 7) {
        Selector selector = {"", 0, 0, {{2, (uint16_t)axis, 0, 1}}, 1};
        Selection s = {&selector, d, (uint16_t)context, NULL, NULL};
        double time = visit_us(&s, 1);
        if (time <= longest) continue;
        longest = time;
        *from = context;
    }
    return longest;
}

/* The step from every node: a visit for each of the nodes and two more. */
static double composed_step(const Document *d, int axis) {
    Selector selector = {"", 0, 0, {{2, 5, 2, 0}, {2, (uint16_t)axis, 0, 1}, {4, 0, 1, 0}}, 3};
    Selection s = {&selector, d, 0, NULL, NULL};
    return visit_us(&s, NODES + 2);
}

/* Visits of operators whose operands cost nothing: their own marks are cleared, looked through and compared. */
static void bench_operators(const Document *d) {
    static const struct {
        Selector selector;
        int visits;
    } cases[] = {
        {{"V/V", 0, 0, {{0, 0, 0, 0}, {4, 0, 0, 0}}, 2}, 2},
        {{".[V in V]", 0, 0, {{0, 0, 0, 0}, {2, 0, 2, 0}, {11, 0, 0, 0}, {5, 1, 2, 0}}, 4}, 5},
    };
    for (size_t i = 0; i < sizeof cases / sizeof cases[0]; i++) {
        Selection s = {&cases[i].selector, d, 0, NULL, NULL};
        printf("| %s | %s | | %.2f |\n", d->name, cases[i].selector.xpath, visit_us(&s, cases[i].visits));
    }
}

static void bench_visits(const Document *d) {
    for (int axis = 0; axis < AXIS_COUNT; axis++) {
        int from = 0;
        double longest = longest_step(d, axis, &from);
        printf("| %s | %s | %.2f from %d | %.2f |\n", d->name, AXES[axis], longest, from, composed_step(d, axis));
    }
    bench_operators(d);
}

/* Selectors as text */

enum { TEXT = 65536, LISTED = 10000, LONGEST = 1000, TRIES = 5 };

static char list[LISTED * (LONGEST + 1) + 1], last[LONGEST + 1];

/* A list of 10,000 names of so many bytes, n and the line's number; the last is another one, where it is given. */
static size_t make_names(int size, const char *other) {
    size_t length = 0;
    for (int i = 0; i < LISTED; i++) {
        if (i < LISTED - 1 || !other) sprintf(last, "n%0*d", size - 1, i);
        else strcpy(last, other);
        length += (size_t)sprintf(list + length, "%s\n", last);
    }
    return length;
}

/* Names that differ from the last one in one byte in the middle. */
static size_t make_near(void) {
    size_t length = 0;
    for (int i = 0; i < LISTED; i++) {
        strcpy(last, i < LISTED - 1 ? "abbbzc" : "abbbbc");
        length += (size_t)sprintf(list + length, "%s\n", last);
    }
    return length;
}

static int is_name_byte(uint64_t b) { return b < 128 && (isalnum((int)b) || b == '-' || b == '.' || b == '_'); }

/* 10,000 names of so many bytes with the signature 0, by which the index tells names apart: a's, four letters, and the
 * four bytes that give it, where these are bytes of a name. */
static size_t make_alike(int size) {
    static const char letters[] = "abcdefghijklmnopqrstuvwxyzABCDEFGHIJKLMNOPQRSTUVWXYZ";
    const uint64_t base = 257, modulus = 4294967291;
    size_t length = 0, first = (size_t)size - 8;
    memset(last, 'a', first);
    for (int i = 0, made = 0; made < LISTED; i++) {
        uint64_t signature = 0;
        for (int j = 0, left = i; j < 4; j++, left /= 52) last[first + j] = letters[left % 52];
        for (size_t j = 0; j < first + 4; j++) signature = (signature * base + (uint8_t)last[j]) % modulus;
        for (int j = 0; j < 4; j++) signature = signature * base % modulus;
        uint64_t rest = (modulus - signature) % modulus;
        int named = 1;
        for (int j = 3; j >= 0; j--, rest /= base) {
            named = named && is_name_byte(rest % base);
            last[first + 4 + j] = (char)(rest % base);
        }
        last[first + 8] = 0;
        if (!named || rest) continue;
        length += (size_t)sprintf(list + length, "%s\n", last);
        made++;
    }
    return length;
}

/* The start, then pieces over and over, and then spaces, 65,536 bytes in all. */
static void make_text(char *text, const char *start, const char *piece) {
    size_t length = strlen(start), size = strlen(piece);
    memcpy(text, start, length);
    for (; length + size <= TEXT; length += size) memcpy(text + length, piece, size);
    memset(text + length, ' ', TEXT - length);
}

/* All names n0000 to n9999, from the last on, one after the other. */
static void make_all(char *text) {
    memset(text, ' ', TEXT);
    memcpy(text, "n9999", 5);
    for (int i = LISTED - 2; i >= 0; i--) sprintf(text + 6 * (LISTED - 1 - i) - 1, "/n%04d", i);
    text[6 * LISTED - 1] = ' ';
}

static void bench_text_on(const char *what, const char *text, size_t length) {
    double best = 1e9;
    uint16_t answer = 0;
    for (int n = 0; n < TRIES; n++) {
        double start = now();
        answer = bench_text((const uint8_t *)list, length, (const uint8_t *)text, TEXT);
        double took = now() - start;
        if (took < best) best = took;
    }
    printf("| %s | %u | %.4f | %.1f |\n", what, answer, best, best / TEXT * 1e9);
}

/* The list's last name over and over. */
static void bench_last(const char *what, size_t length) {
    static char text[TEXT + 1], piece[LONGEST + 2];
    sprintf(piece, "/%s", last);
    make_text(text, last, piece);
    bench_text_on(what, text, length);
}

static void bench_texts(void) {
    static char text[TEXT + 1];
    static const struct { const char *what, *start, *piece; } shapes[] = {
        {"spaces after a name", "n0000", " "},
        {"`/..` over and over", ".", "/.."},
        {"`[.]` over and over", "*", "[.]"},
        {"the first name of the list over and over", "n0000", "/n0000"},
        {"a name of one byte that isn't listed over and over", "x", "/x"},
    };
    printf("\nA text of 65,536 bytes with a list of 10,000 names, in seconds, and the nanoseconds for one byte:\n\n");
    printf("| text | answer | shortest of 5 | a byte |\n|---|---|---|---|\n");
    for (size_t i = 0; i < sizeof shapes / sizeof *shapes; i++) {
        make_text(text, shapes[i].start, shapes[i].piece);
        bench_text_on(shapes[i].what, text, make_names(5, NULL));
    }
    make_all(text);
    bench_text_on("all names of the list, from the last on", text, make_names(5, NULL));
    static const int sizes[] = {5, 12, 50, 60, LONGEST};
    for (size_t i = 0; i < sizeof sizes / sizeof *sizes; i++) {
        char what[120];
        sprintf(what, "the last name of the list over and over, names of %d bytes", sizes[i]);
        bench_last(what, make_names(sizes[i], NULL));
        sprintf(what, "the same where the last name has one byte, the others %d", sizes[i]);
        bench_last(what, make_names(sizes[i], "x"));
    }
    make_text(text, "x", "/x");
    bench_text_on("a name of one byte that isn't listed over and over, names of 1000 bytes", text,
                  make_names(LONGEST, NULL));
    bench_last("the last name over and over, where all others differ from it in one byte", make_near());
    static const int alike[] = {8, 12, 60, LONGEST};
    for (size_t i = 0; i < sizeof alike / sizeof *alike; i++) {
        char what[120];
        sprintf(what, "the last name over and over, names of %d bytes that have one signature and differ in the last 8",
                alike[i]);
        bench_last(what, make_alike(alike[i]));
    }
}

/* The archive's calls, and the program replay; beside each that of an older commit, where its archive is there too,
 * with `old_` before its names. */

typedef struct {
    uint16_t (*read)(const uint8_t *, size_t);
    uint16_t (*file)(const uint8_t *, size_t, uint8_t *, size_t, size_t *);
    uint16_t (*select)(const uint8_t *, size_t, const uint8_t *, size_t, const uint16_t *, size_t, uint16_t, uint32_t,
                       uint8_t *, size_t, size_t *);
} Archive;

static const Archive OURS = {spinebriar_read, spinebriar_file, spinebriar_select};

#ifdef OLD_ARCHIVE
uint16_t old_spinebriar_read(const uint8_t *bytes, size_t length);
uint16_t old_spinebriar_file(const uint8_t *calls, size_t length, uint8_t *out, size_t room, size_t *value);
uint16_t old_spinebriar_select(const uint8_t *names, size_t names_length, const uint8_t *selector,
                               size_t selector_length, const uint16_t *document, size_t document_numbers,
                               uint16_t context, uint32_t limit, uint8_t *marks, size_t room, size_t *value);
static const Archive OLD = {old_spinebriar_read, old_spinebriar_file, old_spinebriar_select};
#else
static const Archive OLD;
#endif

enum { CALLS_ROOM = 1 << 17 };

static Bundle exported, calls; /* a bundle, and the calls that make it as a script */

static void read_by(const Archive *archive) {
    check(archive->read(exported.bytes, exported.length) == 0, "the bundle is refused");
}

static void file_by(const Archive *archive) {
    static uint8_t out[ROOM];
    size_t length;
    check(archive->file(calls.bytes, calls.length, out, sizeof out, &length) == 0, "the calls are refused");
    check(length == exported.length && memcmp(out, exported.bytes, length) == 0, "another bundle is filed");
}

/* On a chain of nodes of one name, each in the one before. */
static void select_by(const Archive *archive) {
    static const char names[] = "e1\n", selector[] = "/descendant::e1[e1]";
    static uint16_t document[3 * NODES];
    static uint8_t marks[NODES];
    size_t value;
    for (int i = 1; document[3 * (NODES - 1)] == 0 && i < NODES; i++) {
        document[3 * i] = 1;
        document[3 * i + 1] = (uint16_t)(i - 1);
        document[3 * i + 2] = 1;
    }
    uint16_t answer = archive->select((const uint8_t *)names, sizeof names - 1, (const uint8_t *)selector,
                                      sizeof selector - 1, document, 3 * NODES, 0, 1000000, marks, NODES, &value);
    check(answer == 0 && marks[NODES - 2] == 1 && marks[NODES - 1] == 0, "the selection is another one");
}

#define SIDES(NAME) \
    static void NAME##_ours(const void *of) { (void)of, NAME##_by(&OURS); } \
    static void NAME##_old(const void *of) { (void)of, NAME##_by(&OLD); }

SIDES(read)
SIDES(file)
SIDES(select)

static const char *replay_program, *replay_script;

/* The program replay on the script, its answers into a file. */
static void replay(const char *program) {
    posix_spawn_file_actions_t files;
    char *const arguments[] = {(char *)program, NULL}, *const environment[] = {NULL};
    pid_t child;
    int status = 1;
    posix_spawn_file_actions_init(&files);
    posix_spawn_file_actions_addopen(&files, 0, replay_script, O_RDONLY, 0);
    posix_spawn_file_actions_addopen(&files, 1, "target/bench/answers", O_WRONLY | O_CREAT | O_TRUNC, 0644);
    check(posix_spawn(&child, program, &files, NULL, arguments, environment) == 0, "no program replay");
    posix_spawn_file_actions_destroy(&files);
    check(waitpid(child, &status, 0) == child && status == 0, "replay fails");
}

static void replay_ours(const void *of) {
    (void)of, replay(replay_program);
}

static void replay_old(const void *of) { replay(of); }

/* The old side is measured where there is one. */
static Timing print_sides(const char *what, Call *old, Call *ours, const void *of) {
    Timing sides[2] = {{.call = ours}, {.call = old}};
    measure(sides, old ? 2 : 1, of);
    printf("| %s |", what);
    if (old) print_timings(&sides[1], &sides[0]);
    else printf(" | | %.2f | %.2f | | |\n", min_us(&sides[0]), median_us(&sides[0]));
    return sides[0];
}

/* The calls of the bundle: its rows' and steps' lines, with the word before each. */
static void make_calls_of(const char *bundle) {
    static char text[CALLS_ROOM];
    const char *word = NULL;
    for (const char *line = bundle; *line; line = strchr(line, '\n') + 1) {
        if (isdigit((unsigned char)*line)) {
            int size = (int)(strchr(line, '\n') + 1 - line);
            calls.length += (size_t)snprintf(text + calls.length, CALLS_ROOM - calls.length, "%s %.*s", word, size, line);
            check(calls.length < CALLS_ROOM, "too many calls");
        } else {
            word = word ? "step" : "term";
        }
    }
    calls.bytes = (uint8_t *)text;
}

static void bench_exports(const char *bundle, const char *script, const char *program, const char *old_program) {
    static uint8_t bytes[1 << 20];
    FILE *file = fopen(bundle, "rb");
    check(file != NULL, "no bundle");
    exported = (Bundle){bytes, fread(bytes, 1, sizeof bytes - 1, file)};
    fclose(file);
    make_calls_of((const char *)bytes);
    file = fopen(script, "wb");
    check(file != NULL && fwrite(calls.bytes, 1, calls.length, file) == calls.length, "no room for the calls");
    fclose(file);
    replay_program = program;
    replay_script = script;
    bool old = OLD.read != NULL;
    printf("\nThe archive's calls on the bundle of 1,024 rows and 2,048 steps, and on a chain, in microseconds:\n\n");
    printf("| call | old min | median | ours min | median | ratio of min | of median |\n|---|---|---|---|---|---|---|\n");
    Timing read = print_sides("spinebriar_read", old ? read_old : NULL, read_ours, NULL);
    Timing filed = print_sides("spinebriar_file of its calls", old ? file_old : NULL, file_ours, NULL);
    print_sides("spinebriar_select on a chain of 512 nodes", old ? select_old : NULL, select_ours, NULL);
    print_sides("replay of its calls, by the clock", old_program ? replay_old : NULL, replay_ours, old_program);
    printf("\nspinebriar_file takes %.2f times spinebriar_read by min, %.2f by median.\n", min_us(&filed) / min_us(&read),
           median_us(&filed) / median_us(&read));
}

int main(int argc, char **argv) {
    check(argc == 4 || argc == 5, "usage: bench BUNDLE CALLS REPLAY [OLD_REPLAY]");
    bench_read(argv[1]);
    bench_exports(argv[1], argv[2], argv[3], argv[4]);
    bench_calls();
    bench_orders();
    bench_texts();
    static Document documents[2], shapes[3];
    make_nested(&documents[0]);
    make_flat(&documents[1]);
    for (int i = 0; i < 2; i++) make_tree(&documents[i]);
    bench_documents(documents, run_libxml2, "libxml2 on a tree that stands already");
    bench_documents(documents, run_parse_and_evaluate, "libxml2 with the parsing of the document");
    bench_documents_beside_old(documents);
    printf("\nOurs on the void path, which selects nothing, in microseconds:\n\n| document | min | median |\n|---|---|---|\n");
    for (int i = 0; i < 2; i++) bench_void(&documents[i]);
    printf("\nOne visit, in microseconds: of AXIS::e1, the longest; the mean of descendant-or-self::node()/AXIS::e1 from the root:\n\n");
    printf("| document | axis | longest | mean |\n|---|---|---|---|\n");
    make_chain(&shapes[0]);
    make_star(&shapes[1]);
    make_comb(&shapes[2]);
    for (int i = 0; i < 3; i++) bench_visits(&shapes[i]);
    return 0;
}
