/* Reads a batch of documents by expat, with namespaces, and prints of each its number and the count of its rows, a
   checksum of them and one of the lines of those that are no attributes; or "refused", the place and the reason. With
   an argument it keeps the rows, all but their names, in place of the checksums. */
#include "sums.h"

#include <expat.h>
#include <stdbool.h>

struct row {
    unsigned kind, parent, line;
};

static const char SEPARATOR = '\n';

struct reading {
    XML_Parser parser;
    bool keeps_rows;
    struct row *kept;
    size_t kept_room;
    unsigned count;
    unsigned rows;
    unsigned lines;
    unsigned *open; /* the rows of the open elements, the root's first */
    size_t depth;
    size_t room;
    bool in_text;
    bool in_doctype;
    bool left_out; /* an entity that is in another file, or not declared here */
};

static void put(struct reading *reading, unsigned kind, unsigned parent, const char *name)
{
    reading->in_text = kind == TEXT;
    if (reading->keeps_rows) {
        if (reading->count == reading->kept_room) {
            reading->kept_room = reading->kept_room == 0 ? 1024 : 2 * reading->kept_room;
            reading->kept = realloc(reading->kept, reading->kept_room * sizeof *reading->kept);
        }
        unsigned line = XML_GetCurrentLineNumber(reading->parser);
        reading->kept[reading->count++] = (struct row){kind, parent, line};
        return;
    }
    reading->count++;
    const char *separator = name == NULL ? NULL : strrchr(name, SEPARATOR);
    if (separator == NULL) {
        reading->rows = sum_row(reading->rows, kind, parent, name == NULL ? "-" : name, "-");
    } else {
        char *space = strndup(name, separator - name);
        reading->rows = sum_row(reading->rows, kind, parent, separator + 1, space);
        free(space);
    }
    if (kind != ATTRIBUTE) {
        unsigned line = XML_GetCurrentLineNumber(reading->parser);
        reading->lines = sum(reading->lines, &line, sizeof line);
    }
}

static unsigned owner(const struct reading *reading)
{
    return reading->open[reading->depth - 1];
}

static void open_row(struct reading *reading, unsigned row)
{
    if (reading->depth == reading->room) {
        reading->room = reading->room == 0 ? 64 : 2 * reading->room;
        reading->open = realloc(reading->open, reading->room * sizeof *reading->open);
    }
    reading->open[reading->depth++] = row;
}

static void start_element(void *data, const char *name, const char **attributes)
{
    struct reading *reading = data;
    unsigned row = reading->count;
    put(reading, ELEMENT, owner(reading), name);
    for (; attributes[0] != NULL; attributes += 2) {
        put(reading, ATTRIBUTE, row, attributes[0]);
    }
    open_row(reading, row);
}

static void end_element(void *data, const char *name)
{
    struct reading *reading = data;
    (void)name;
    reading->depth--;
    reading->in_text = false;
}

static void text(void *data, const char *bytes, int length)
{
    struct reading *reading = data;
    (void)bytes;
    if (length > 0 && !reading->in_text) {
        put(reading, TEXT, owner(reading), NULL);
    }
}

static void comment(void *data, const char *bytes)
{
    struct reading *reading = data;
    (void)bytes;
    if (!reading->in_doctype) {
        put(reading, COMMENT, owner(reading), NULL);
    }
}

static void instruction(void *data, const char *target, const char *bytes)
{
    struct reading *reading = data;
    (void)bytes;
    if (!reading->in_doctype) {
        put(reading, INSTRUCTION, owner(reading), target);
    }
}

static void start_doctype(void *data, const char *name, const char *system, const char *public, int has_subset)
{
    (void)name, (void)system, (void)public, (void)has_subset;
    ((struct reading *)data)->in_doctype = true;
}

static void end_doctype(void *data)
{
    ((struct reading *)data)->in_doctype = false;
}

static int external_entity(XML_Parser parser, const char *context, const char *base, const char *system,
                           const char *public)
{
    (void)context, (void)base, (void)system, (void)public;
    ((struct reading *)XML_GetUserData(parser))->left_out = true;
    return XML_STATUS_ERROR;
}

static void skipped_entity(void *data, const char *name, int is_parameter)
{
    struct reading *reading = data;
    (void)name;
    if (!is_parameter) {
        reading->left_out = true;
        XML_StopParser(reading->parser, XML_FALSE);
    }
}

int main(int argc, char **argv)
{
    size_t length;
    char *bytes;
    struct reading reading = {.keeps_rows = argc > 1};
    (void)argv;
    for (unsigned number = 0; (bytes = next_document(&length)) != NULL; number++) {
        XML_Parser parser = XML_ParserCreateNS(NULL, SEPARATOR);
        XML_SetHashSalt(parser, 1);
        reading.parser = parser;
        reading.count = 0;
        reading.rows = reading.lines = EMPTY_SUM;
        reading.depth = 0;
        reading.in_text = reading.in_doctype = reading.left_out = false;
        XML_SetUserData(parser, &reading);
        XML_SetElementHandler(parser, start_element, end_element);
        XML_SetCharacterDataHandler(parser, text);
        XML_SetCommentHandler(parser, comment);
        XML_SetProcessingInstructionHandler(parser, instruction);
        XML_SetDoctypeDeclHandler(parser, start_doctype, end_doctype);
        XML_SetExternalEntityRefHandler(parser, external_entity);
        XML_SetSkippedEntityHandler(parser, skipped_entity);
        put(&reading, ROOT, 0, NULL);
        open_row(&reading, 0);
        if (XML_Parse(parser, bytes, (int)length, 1) == XML_STATUS_OK) {
            printf("%u %u %u %u\n", number, reading.count, reading.rows, reading.lines);
        } else {
            printf("%u refused %lu:%lu: %s\n", number, (unsigned long)XML_GetCurrentLineNumber(parser),
                   (unsigned long)XML_GetCurrentColumnNumber(parser) + 1,
                   reading.left_out ? "an entity that is left out" : XML_ErrorString(XML_GetErrorCode(parser)));
        }
        XML_ParserFree(parser);
        free(bytes);
    }
    return 0;
}
