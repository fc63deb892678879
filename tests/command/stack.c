/* The stack that each call of the archive takes, for run.sh: a thread whose stack is painted makes the call, and
   what is no longer painted was used. A call that takes more than include/spinebriar.h says is a failure.

       stack BUNDLE..      the bundles are tried one after the other, and the most is printed

   Every call is measured on selectors that are as deep as rows may nest and one that is as deep as predicates may, with
   a list of names that is indexed, on the longest documents, deep and wide, and on the rows and steps of the bundles;
   run.sh gives it one with a step by rule 59 on a path nested 28 deep, and a full one. */
#define _GNU_SOURCE
#include <pthread.h>
#include <stdio.h>
#include <stdlib.h>
#include <string.h>

#include "bytes.h"
#include "spinebriar.h"

enum { STACK = 1 << 20, PAINT = 0xa5 };

/* Every selector is as deep as rows may nest, in another way, but for the last: it is as deep as predicates may, which
   takes the most of a reading, and its rows nest too deep. */
static const char *const SELECTORS[] = {
    "a/a/a/a/a/a/a/a/a/a/a/a/a/a/a/a/a/a/a/a/a/a/a/a/a/a/a/a/a/a/a/a",
    "a[a[a[a[a[a[a[a[a]]]]]]]]",
    "a[not(not(not(not(not(not(not(not(not(not(not(not(not(not(not(not(not(not(not(not(not(a)))))))))))))))))))))]",
    "a|a|a|a|a|a|a|a|a|a|a|a|a|a|a|a|a|a|a|a|a|a|a|a|a|a|a|a|a|a|a|a",
    "/descendant::a[((((((((((((((((((((((((((((((a))))))))))))))))))))))))))))))]",
    "/descendant-or-self::node()/following::a[preceding::a[ancestor::a[following-sibling::a]]]",
    "a[a[a[a[a[a[a[a[a[a[a[a[a[a[a[a[a[a[a[a[a[a[a[a[a[a[a[a[a[a[a[a[a]]]]]]]]]]]]]]]]]]]]]]]]]]]]]]]]",
};
enum { SELECTOR_COUNT = sizeof SELECTORS / sizeof *SELECTORS };

/* What the thread is to call, and on what. */
static struct bytes bundle;
static const char *selector;
static uint8_t names[4096]; /* the name a and empty lines, enough for a list that is indexed */
static uint16_t document[3 * SPINEBRIAR_MOST_NODES];

static void call_nothing(void)
{
}

static void call_read(void)
{
    spinebriar_read(bundle.at, bundle.length);
}

static void call_read_line(void)
{
    size_t value;
    spinebriar_read_line(bundle.at, bundle.length, &value);
}

static void call_claim(void)
{
    size_t value, part;
    const uint8_t *text = (const uint8_t *)selector;
    spinebriar_claim(bundle.at, bundle.length, names, sizeof names, text, strlen(selector), text, strlen(selector),
                     &value, &part);
}

static void call_select(void)
{
    size_t value;
    uint8_t marks[SPINEBRIAR_MOST_NODES];
    spinebriar_select(names, sizeof names, (const uint8_t *)selector, strlen(selector), document,
                      3 * SPINEBRIAR_MOST_NODES, 0, 100000, marks, SPINEBRIAR_MOST_NODES, &value);
}

/* The bundle as calls, or as many of them as fit, the list of names, and the selector as text. */
static struct {
    char at[SPINEBRIAR_MOST_BYTES];
    size_t length;
} calls;

static void put(const char *text, size_t length)
{
    memcpy(calls.at + calls.length, text, length);
    calls.length += length;
}

static void make_calls(void)
{
    const char *word = "", *line = (const char *)bundle.at, *end = line + bundle.length;
    size_t last = sizeof calls.at - sizeof names - 256;
    calls.length = 0;
    while (line < end && calls.length < last) {
        size_t length = (size_t)((const char *)memchr(line, '\n', (size_t)(end - line)) - line) + 1;
        if (*line == 'k' || *line == 'r') {
            word = *line == 'k' ? "term " : "step ";
        } else {
            put(word, strlen(word));
            put(line, length);
        }
        line += length;
    }
    put("names ", 6);
    for (size_t i = 0; i < sizeof names; i++) {
        put(names[i] == '\n' ? " " : (const char *)&names[i], 1);
    }
    put("\ntext ", 6);
    put(selector, strlen(selector));
    put("\n", 1);
}

static void call_file(void)
{
    static uint8_t out[SPINEBRIAR_MOST_BYTES];
    size_t value;
    spinebriar_file((const uint8_t *)calls.at, calls.length, out, sizeof out, &value);
}

struct call {
    const char *name;
    void (*make)(void);
    size_t most, used;
};

/* The first one is what a thread uses for itself. */
static struct call CALLS[] = {
    {"nothing", call_nothing, STACK, 0},
    {"spinebriar_read", call_read, SPINEBRIAR_READ_STACK, 0},
    {"spinebriar_read_line", call_read_line, SPINEBRIAR_READ_STACK, 0},
    {"spinebriar_claim", call_claim, SPINEBRIAR_CLAIM_STACK, 0},
    {"spinebriar_select", call_select, SPINEBRIAR_SELECT_STACK, 0},
    {"spinebriar_file", call_file, SPINEBRIAR_FILE_STACK, 0},
};
enum { CALL_COUNT = sizeof CALLS / sizeof *CALLS };

static void *run(void *call)
{
    ((struct call *)call)->make();
    return NULL;
}

/* Makes the call on a painted stack; what it used, the thread's own part with it. */
static void measure(struct call *call)
{
    static uint8_t *stack;
    pthread_t thread;
    pthread_attr_t attributes;
    if (stack == NULL) {
        stack = aligned_alloc(4096, STACK);
    }
    memset(stack, PAINT, STACK);
    pthread_attr_init(&attributes);
    if (pthread_attr_setstack(&attributes, stack, STACK) != 0 ||
        pthread_create(&thread, &attributes, run, call) != 0) {
        exit(UNREADABLE);
    }
    pthread_join(thread, NULL);
    size_t clean = 0;
    while (clean < STACK && stack[clean] == PAINT) {
        clean++;
    }
    call->used = STACK - clean > call->used ? STACK - clean : call->used;
}

/* A chain of elements, each in the one before, or all of them children of the first. */
static void make_document(bool chain)
{
    for (uint16_t i = 1; i < SPINEBRIAR_MOST_NODES; i++) {
        document[3 * i] = 1;
        document[3 * i + 1] = chain || i == 1 ? (uint16_t)(i - 1) : 1;
        document[3 * i + 2] = 1;
    }
}

/* All calls on the bundle, with each selector on both documents. */
static void measure_all(void)
{
    for (size_t i = 0; i < SELECTOR_COUNT; i++) {
        selector = SELECTORS[i];
        make_calls();
        for (int chain = 0; chain < 2; chain++) {
            make_document(chain);
            for (size_t j = 0; j < CALL_COUNT; j++) {
                measure(&CALLS[j]);
            }
        }
    }
}

int main(int argc, char **argv)
{
    int status = YES;
    memset(names, '\n', sizeof names);
    names[0] = 'a';
    for (int i = 1; i < argc; i++) {
        if (!read_bytes(argv[i], SPINEBRIAR_MOST_BYTES, &bundle)) {
            return UNREADABLE;
        }
        measure_all();
        free(bundle.at);
    }
    for (size_t i = 1; i < CALL_COUNT; i++) {
        size_t used = CALLS[i].used - CALLS[0].used;
        printf("%s: %zu bytes of stack, at most %zu\n", CALLS[i].name, used, CALLS[i].most);
        status = used > CALLS[i].most ? NO : status;
    }
    return status;
}
