#include "paths.h"

static bool alike(struct node x, struct node y)
{
    return x.kind == y.kind && x.parent == y.parent && x.name == y.name;
}

void number_places(const struct document *document, struct places *places)
{
    const struct node *nodes = document->nodes;
    for (size_t i = 0; i < document->count; i++) {
        uint16_t before = 0, all = 0;
        for (size_t j = 1; j < document->count; j++) {
            bool same = alike(nodes[i], nodes[j]);
            all = (uint16_t)(all + same);
            before = (uint16_t)(before + (same && j < i));
        }
        places->place[i] = (uint16_t)(before + 1);
        places->of[i] = all;
    }
}

static void put_name_of(const struct names *names, uint16_t number, FILE *out)
{
    const struct name *name = name_of(names, number);
    if (name != NULL) {
        fwrite(name->text, 1, name->length, out);
    }
}

/* `/`, the step and, among several, its place. */
static void put_step(const struct document *document, const struct places *places, const struct names *names,
                     size_t node, FILE *out)
{
    struct node here = document->nodes[node];
    fputc('/', out);
    switch (here.kind) {
    case TEXT: fputs("text()", out); break;
    case COMMENT: fputs("comment()", out); break;
    case INSTRUCTION:
        fputs("processing-instruction('", out);
        put_name_of(names, here.name, out);
        fputs("')", out);
        break;
    default:
        fputs(here.kind == ATTRIBUTE ? "@" : "", out);
        put_name_of(names, here.name, out);
    }
    if (places->of[node] > 1) {
        fprintf(out, "[%u]", places->place[node]);
    }
}

void put_path(const struct document *document, const struct places *places, const struct names *names, size_t node,
              FILE *out)
{
    size_t above[SPINEBRIAR_MOST_NODES], depth = 0;
    for (; node != 0; node = document->nodes[node].parent) {
        above[depth++] = node;
    }
    if (depth == 0) {
        fputc('/', out);
    }
    while (depth > 0) {
        put_step(document, places, names, above[--depth], out);
    }
}
