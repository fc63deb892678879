/* Selections on documents of any size, against libxml2 and, where it is there, pugixml, over nested, flat, mixed and
 * log-like documents of 512 to 10^6 nodes. Prints a table, a line for each selector and document: the nodes selected, the
 * best time of each in microseconds, ours over libxml2's, and whether the sets are the same.
 *
 *     documents [MOST_NODES]
 *
 * tools/bench/documents.sh builds and runs it. The tree of each library stands before the clock starts; ours is checked
 * once, and what is timed is the difference between many selections on it and one, so neither the check nor the copy of
 * what is lent counts. A library that takes more than SECONDS is not waited for. */

#include "../../include/spinebriar.h"

#include <libxml/parser.h>
#include <libxml/tree.h>
#include <libxml/xpath.h>
#include <stdbool.h>
#include <stdio.h>
#include <stdlib.h>
#include <string.h>
#include <sys/mman.h>
#include <sys/wait.h>
#include <time.h>
#include <unistd.h>

uint32_t bench_documents(const uint8_t *kinds, size_t kinds_length, const uint32_t *parents, size_t parents_length,
                         const uint16_t *names, size_t names_length, const uint16_t *rows, size_t rows_length,
                         uint16_t row, uint32_t context, uint32_t count, bool *marks, size_t marks_length);

#ifdef PUGIXML
int pugixml_parse(const char *text, size_t length);
int pugixml_compile(const char *xpath);
long pugixml_select(void);
void pugixml_free(void);
#endif

enum { DOC = 1, RUN, MARK, DEPTH, LAST_NAME = 8, ROWS = 1024, SECONDS = 3, ELEMENT = 1, TEXT = 2, ATTRIBUTE = 5 };

static const char *const NAMES[] = {"", "doc", "run", "mark", "depth", "a", "b", "x", "y"};
static const char LIST[] = "names doc run mark depth a b x y\n";
static const char *const SELECTORS[] = {
    "doc", "doc/run/mark", "*/*/*", "//mark", "//run/mark[depth]", "//run[@x]/mark", "//*[@x and @y]", "//@x", "//text()/..",
    "descendant::a/following::b", "//*[.//x]/preceding::y", "//*[//*]", "descendant::a/following-sibling::b",
    "descendant::b/preceding-sibling::a", "descendant::run[@x]/ancestor::node()", "//x/ancestor-or-self::*[mark]",
    "descendant::node()[preceding::a and following::b or not(preceding-sibling::*)]",
    "//text()/parent::*/preceding-sibling::node()", "descendant::x/ancestor-or-self::* | descendant::x/@*",
    "//a | //b | //x", "//run[not(mark)]", "//run[not(.//mark[depth or @x])]", "//*[not(following::*)]",
    "//mark[../depth][following-sibling::run/mark]",
};

typedef struct {
    const char *shape;
    size_t count;
    uint8_t *kinds;
    uint32_t *parents;
    uint16_t *names;
    xmlNodePtr *nodes;
    xmlDocPtr tree;
} Document;

typedef struct {
    double seconds;
    size_t count, hash;
    int done;
} Found;

static void check(bool holds, const char *what) {
    if (holds) return;
    fprintf(stderr, "%s\n", what);
    exit(1);
}

static double now(void) {
    struct timespec at;
    clock_gettime(CLOCK_MONOTONIC, &at);
    return (double)at.tv_sec + (double)at.tv_nsec * 1e-9;
}

static unsigned seed;

static unsigned chance(unsigned most) {
    seed = seed * 1103515245u + 12345u;
    return (seed >> 16 & 0x7fff) % most;
}

static uint32_t put(Document *d, int kind, uint32_t parent, unsigned name) {
    uint32_t row = (uint32_t)d->count++;
    d->kinds[row] = (uint8_t)kind;
    d->parents[row] = parent;
    d->names[row] = (uint16_t)name;
    return row;
}

static unsigned some_name(void) { return RUN + chance(LAST_NAME - RUN + 1); }

static void make_flat(Document *d, uint32_t top, size_t most) {
    while (d->count < most) {
        bool text = d->count % 9 == 3;
        put(d, text ? TEXT : ELEMENT, top, text ? 0 : some_name());
    }
}

static void make_nested(Document *d, uint32_t top, size_t most) {
    for (uint32_t at = top; d->count < most;) at = put(d, ELEMENT, at, some_name());
}

static void make_mixed(Document *d, uint32_t top, size_t most) {
    uint32_t path[16] = {top};
    bool text = false;
    for (unsigned deep = 0; d->count < most;) {
        unsigned what = chance(10);
        if (what < 4 && deep < 14) {
            uint32_t element = put(d, ELEMENT, path[deep], some_name());
            path[++deep] = element;
            text = false;
            if (chance(3) == 0 && d->count < most) put(d, ATTRIBUTE, element, some_name());
        } else if (what < 6 && !text) {
            put(d, TEXT, path[deep], 0);
            text = true;
        } else if (deep > 0 && what < 9) {
            deep--;
            text = false;
        } else {
            put(d, ELEMENT, path[deep], some_name());
            text = false;
        }
    }
}

/* A log: runs of marks, each with its depth, a serial number at some of the runs. */
static void make_log(Document *d, uint32_t top, size_t most) {
    while (d->count + 24 < most) {
        uint32_t run = put(d, ELEMENT, top, RUN);
        if (chance(4) == 0) put(d, ATTRIBUTE, run, 7);
        for (unsigned marks = 1 + chance(5); marks > 0; marks--) {
            uint32_t mark = put(d, ELEMENT, run, chance(6) ? MARK : 5 + chance(4));
            put(d, TEXT, mark, 0);
            if (chance(3) == 0) put(d, TEXT, put(d, ELEMENT, mark, DEPTH), 0);
        }
    }
    while (d->count < most) put(d, ELEMENT, top, RUN);
}

static void make_tree(Document *d) {
    d->tree = xmlNewDoc((const xmlChar *)"1.0");
    d->nodes[0] = (xmlNodePtr)d->tree;
    for (size_t i = 1; i < d->count; i++) {
        xmlNodePtr parent = d->nodes[d->parents[i]], node;
        const xmlChar *name = (const xmlChar *)NAMES[d->names[i]];
        if (d->kinds[i] == ATTRIBUTE) {
            node = (xmlNodePtr)xmlNewProp(parent, name, (const xmlChar *)"v");
        } else {
            node = d->kinds[i] == TEXT ? xmlNewDocText(d->tree, (const xmlChar *)"t") : xmlNewDocNode(d->tree, NULL, name, NULL);
            node->parent = parent;
            node->prev = parent->last;
            *(parent->last ? &parent->last->next : &parent->children) = node;
            parent->last = node;
        }
        d->nodes[i] = node;
        node->_private = (void *)i;
    }
    xmlXPathOrderDocElems(d->tree);
}

static void make(Document *d, size_t most, const char *shape, void (*fill)(Document *, uint32_t, size_t)) {
    seed = 1;
    *d = (Document){shape, 0, malloc(most), malloc(4 * most), malloc(2 * most), malloc(8 * most), NULL};
    check(d->kinds && d->parents && d->names && d->nodes, "no memory");
    put(d, 0, 0, 0);
    fill(d, put(d, ELEMENT, 0, DOC), most);
    make_tree(d);
}

/* The rows of a selector: those of the bundle of a session that read it. The last one is its own. */
static uint16_t rows_of(const char *selector, uint16_t *rows) {
    static char script[1024], bundle[65536];
    size_t length = 0;
    int size = snprintf(script, sizeof script, "%stext %s\n", LIST, selector);
    check(spinebriar_file((uint8_t *)script, (size_t)size, (uint8_t *)bundle, sizeof bundle - 1, &length) == 0, selector);
    bundle[length] = 0;
    uint16_t count = 0;
    for (char *line = strtok(bundle, "\n"); line; line = strtok(NULL, "\n")) {
        unsigned row[4];
        char more;
        if (sscanf(line, "%u %u %u %u %c", row, row + 1, row + 2, row + 3, &more) != 4) continue;
        for (int i = 0; i < 4; i++) rows[4 * count + i] = (uint16_t)row[i];
        count++;
    }
    return count;
}

static void note(Found *found, size_t node) {
    found->count++;
    found->hash += node * 2654435761u + 1;
}

static void ours(const Document *d, const char *selector, Found *found) {
    static uint16_t rows[4 * ROWS];
    bool *marks = malloc(d->count);
    uint16_t count = rows_of(selector, rows);
    double best = 1e9, once = 1e9;
    uint32_t often = (uint32_t)(1 + 1000000 / d->count);
    check(marks != NULL, "no memory");
    for (int turn = 0; turn < 7; turn++) {
        for (int many = 0; many < 2; many++) {
            double start = now();
            uint32_t refused = bench_documents(d->kinds, d->count, d->parents, d->count, d->names, d->count, rows, 4 * count,
                                               count - 1, 0, many ? 1 + often : 1, marks, d->count);
            double taken = now() - start;
            check(refused == 0, selector);
            if (many ? taken < best : taken < once) *(many ? &best : &once) = taken;
        }
    }
    found->seconds = (best - once) / often;
    for (size_t i = 0; i < d->count; i++)
        if (marks[i]) note(found, i);
    found->done = 1;
    free(marks);
}

static void libxml2(const Document *d, const char *selector, Found *found) {
    xmlXPathContextPtr context = xmlXPathNewContext(d->tree);
    xmlXPathCompExprPtr compiled = xmlXPathCompile((const xmlChar *)selector);
    double begun = now();
    context->node = d->nodes[0];
    found->seconds = 1e9;
    for (int turn = 0; turn == 0 || (turn < 1000 && now() - begun < 0.2); turn++) {
        double start = now();
        xmlXPathObjectPtr result = xmlXPathCompiledEval(compiled, context);
        check(result && result->type == XPATH_NODESET, selector);
        if (turn == 0)
            for (int i = 0; result->nodesetval && i < result->nodesetval->nodeNr; i++)
                note(found, (size_t)result->nodesetval->nodeTab[i]->_private);
        xmlXPathFreeObject(result);
        double taken = now() - start;
        if (taken < found->seconds) found->seconds = taken;
    }
    found->done = 1;
}

#ifdef PUGIXML
static void pugixml(const Document *d, const char *selector, Found *found) {
    (void)d;
    double begun = now();
    found->seconds = 1e9;
    check(pugixml_compile(selector), selector);
    for (int turn = 0; turn == 0 || (turn < 1000 && now() - begun < 0.2); turn++) {
        double start = now();
        found->count = (size_t)pugixml_select();
        double taken = now() - start;
        if (taken < found->seconds) found->seconds = taken;
    }
    found->done = 1;
}
#endif

/* In a process of its own, which an alarm ends. */
static Found in_time(void (*library)(const Document *, const char *, Found *), const Document *d, const char *selector) {
    static Found *shared;
    if (!shared) shared = mmap(NULL, sizeof *shared, PROT_READ | PROT_WRITE, MAP_SHARED | MAP_ANONYMOUS, -1, 0);
    *shared = (Found){0};
    fflush(stdout);
    pid_t child = fork();
    check(child >= 0, "no process");
    if (child == 0) {
        alarm(SECONDS);
        library(d, selector, shared);
        _exit(0);
    }
    waitpid(child, NULL, 0);
    return *shared;
}

static void print_time(Found found) {
    if (found.done) printf(" %.1f |", found.seconds * 1e6);
    else printf(" > %d s |", SECONDS);
}

static void print_line(const Document *d, const char *selector) {
    Found mine = {0}, theirs = in_time(libxml2, d, selector);
    ours(d, selector, &mine);
    printf("| `");
    for (const char *c = selector; *c; c++) printf(*c == '|' ? "\\|" : "%c", *c);
    printf("` | %s | %zu | %zu |", d->shape, d->count, mine.count);
    print_time(mine);
    print_time(theirs);
#ifdef PUGIXML
    Found others = in_time(pugixml, d, selector);
    print_time(others);
#endif
    if (theirs.done) printf(" %.4f | %s |\n", mine.seconds / theirs.seconds,
                            mine.count == theirs.count && mine.hash == theirs.hash ? "yes" : "NO");
    else printf(" | |\n");
}

static void on_document(size_t most, const char *shape, void (*fill)(Document *, uint32_t, size_t)) {
    Document d;
    make(&d, most, shape, fill);
#ifdef PUGIXML
    xmlChar *text;
    int length;
    xmlDocDumpMemory(d.tree, &text, &length);
    check(pugixml_parse((char *)text, (size_t)length), "pugixml");
    xmlFree(text);
#endif
    for (size_t i = 0; i < sizeof SELECTORS / sizeof *SELECTORS; i++) print_line(&d, SELECTORS[i]);
#ifdef PUGIXML
    pugixml_free();
#endif
    free(d.kinds), free(d.parents), free(d.names), free(d.nodes);
}

int main(int arguments, char **words) {
    size_t largest = arguments > 1 ? strtoul(words[1], NULL, 10) : 1000000;
    printf("| selector | document | nodes | selected | ours, us | libxml2, us |"
#ifdef PUGIXML
           " pugixml, us |"
#endif
           " ours / libxml2 | same |\n|---|---|---|---|---|---|"
#ifdef PUGIXML
           "---|"
#endif
           "---|---|\n");
    const size_t sizes[] = {512, 10000, 100000, 1000000};
    for (size_t i = 0; i < 4 && sizes[i] <= largest; i++) {
        on_document(sizes[i], "nested", make_nested);
        on_document(sizes[i], "flat", make_flat);
        on_document(sizes[i], "mixed", make_mixed);
        on_document(sizes[i], "log", make_log);
    }
    return 0;
}
