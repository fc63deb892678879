/* select: the nodes that a selector finds in an XML file. */
#include <string.h>

#include "commands.h"
#include "limit.h"
#include "paths.h"
#include "spinebriar.h"

enum { NUMBERS = 3 };

/* Marks the selected nodes; the answer's number and its value. */
static uint16_t mark_nodes(const struct document *document, const struct names *names, const struct options *options,
                           uint32_t limit, uint8_t *marks, size_t *value)
{
    uint16_t numbers[NUMBERS * SPINEBRIAR_MOST_NODES];
    for (size_t i = 0; i < document->count; i++) {
        struct node node = document->nodes[i];
        numbers[NUMBERS * i] = node.kind;
        numbers[NUMBERS * i + 1] = node.parent;
        numbers[NUMBERS * i + 2] = node.name;
    }
    return spinebriar_select(names->file.at, names->file.length, (const uint8_t *)options->selector,
                             strlen(options->selector), numbers, NUMBERS * document->count, (uint16_t)options->from,
                             limit, marks, SPINEBRIAR_MOST_NODES, value);
}

/* Why nothing was selected. */
static int tell_refusal(uint16_t answer, size_t value, const struct options *options, uint32_t limit, size_t count)
{
    if (answer == SPINEBRIAR_LIMIT_PASSED) {
        complain("refused: 15, more visits are needed than the limit, %u (--limit N sets it)", limit);
    } else if (answer == SPINEBRIAR_BAD_ARGUMENT) {
        complain("refused: 9, the context node %u is outside the document, which has rows 0 to %zu", options->from,
                 count - 1);
    } else if (answer == SPINEBRIAR_BAD_DOCUMENT || answer == SPINEBRIAR_SHORT_MARKS) {
        complain("refused: %u, %s", answer, spinebriar_answer_text(answer));
    } else {
        tell_selector(options->selector, answer, value);
    }
    return NO;
}

int select_nodes(const struct document *document, const struct names *names, const struct options *options,
                 uint8_t marks[SPINEBRIAR_MOST_NODES])
{
    size_t value = 0;
    uint32_t limit = options->limited ? options->limit : default_limit(options->selector, document->count);
    uint16_t answer = mark_nodes(document, names, options, limit, marks, &value);
    return answer == SPINEBRIAR_ACCEPTED ? YES : tell_refusal(answer, value, options, limit, document->count);
}

void print_nodes(const struct document *document, const struct names *names, const uint8_t marks[SPINEBRIAR_MOST_NODES],
                 FILE *out)
{
    struct places places;
    number_places(document, &places);
    for (size_t i = 0; i < document->count; i++) {
        if (marks[i] != 0) {
            fprintf(out, "%zu %lu ", i, document->lines[i]);
            put_path(document, &places, names, i, out);
            fputc('\n', out);
        }
    }
}

int select_command(const struct options *options, FILE *out)
{
    struct names names;
    struct document document;
    uint8_t marks[SPINEBRIAR_MOST_NODES] = {0};
    int status = load_document(options, &names, &document);
    if (status != YES) {
        return status;
    }
    status = select_nodes(&document, &names, options, marks);
    if (status == YES) {
        status = store_added(options, &names, &document);
    }
    if (status == YES) {
        print_nodes(&document, &names, marks, out);
    }
    free_document(&document);
    free_names(&names);
    return status;
}
