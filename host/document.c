#include "document.h"

#include <errno.h>
#include <expat.h>
#include <stdlib.h>
#include <string.h>

/* What is known while the file is read. */
struct reading {
    XML_Parser parser;
    const struct names *names;
    struct document_options options;
    struct document *document;
    uint16_t open;     /* the row of the innermost element that is open, or 0; past the last row nothing reads it */
    bool in_text;      /* the node before is text, which goes on */
    bool in_doctype;   /* comments and instructions there are no nodes */
    bool entity_left;  /* an entity was left out */
    bool memory_short; /* for a name that is to be added */
    char problem[256]; /* the first one with a name, or empty */
};

/* The node goes to the end of the rows, or is only counted. */
static void put_node(struct reading *reading, uint16_t kind, uint16_t name)
{
    struct document *document = reading->document;
    if (document->count < SPINEBRIAR_MOST_NODES) {
        document->nodes[document->count] = (struct node){kind, reading->open, name};
        document->lines[document->count] = XML_GetCurrentLineNumber(reading->parser);
    }
    document->count++;
    reading->in_text = kind == TEXT;
}

/* Notes the first problem only. */
static void name_problem(struct reading *reading, const char *name, const char *what)
{
    if (reading->problem[0] == '\0') {
        unsigned long line = XML_GetCurrentLineNumber(reading->parser);
        snprintf(reading->problem, sizeof reading->problem, "line %lu: the name %.80s %s", line, name, what);
    }
}

/* The number of a name that the list lacks: that of its line once it is added. 0 where it can't be. */
static uint16_t added_number(struct reading *reading, const char *name)
{
    struct document *document = reading->document;
    size_t length = strlen(name);
    for (size_t i = 0; i < document->added; i++) {
        if (document->more[i].length == length && memcmp(document->more[i].text, name, length) == 0) {
            return document->more[i].number;
        }
    }
    size_t number = reading->names->lines + document->added + 1;
    if (number > SPINEBRIAR_MOST_NUMBER || document->added == SPINEBRIAR_MOST_NODES) {
        return 0;
    }
    char *copy = strdup(name);
    if (copy == NULL) {
        reading->memory_short = true;
        return 0;
    }
    document->more[document->added++] = (struct name){copy, length, (uint16_t)number};
    return (uint16_t)number;
}

/* The number of an element's, an attribute's or an instruction's name; 0 where there is a problem. Past the last
   row no name is looked at. */
static uint16_t name_number(struct reading *reading, const char *name, bool may_have_prefix)
{
    const char *colon = strchr(name, ':');
    if (reading->document->count >= SPINEBRIAR_MOST_NODES) {
        return 0;
    }
    if (colon != NULL && may_have_prefix && reading->options.local_names) {
        name = colon + 1;
    } else if (colon != NULL) {
        name_problem(reading, name,
                     may_have_prefix ? "has a prefix (--local-names takes the part after it)" : "has a colon");
        return 0;
    }
    if (!is_name(name, strlen(name))) {
        name_problem(reading, name, "is not of ASCII letters, digits, _, - and .");
        return 0;
    }
    uint16_t number = number_of(reading->names, name, strlen(name));
    if (number == 0 && reading->options.add) {
        number = added_number(reading, name);
    }
    if (number == 0) {
        name_problem(reading, name,
                     reading->options.add ? "finds no number up to 65535" : "is not in the list (--add adds it)");
    }
    return number;
}

/* xmlns and xmlns:prefix declare namespaces and are no attributes. Without --local-names they are a problem, since
   a name would then be another one. */
static bool is_declaration(struct reading *reading, const char *name)
{
    if (strcmp(name, "xmlns") != 0 && strncmp(name, "xmlns:", 6) != 0) {
        return false;
    }
    if (!reading->options.local_names) {
        name_problem(reading, name, "declares a namespace (--local-names leaves it out)");
    }
    return true;
}

static void element_starts(void *data, const char *name, const char **attributes)
{
    struct reading *reading = data;
    size_t row = reading->document->count;
    put_node(reading, ELEMENT, name_number(reading, name, true));
    if (row < SPINEBRIAR_MOST_NODES) {
        reading->open = (uint16_t)row;
    }
    for (size_t i = 0; attributes[i] != NULL; i += 2) {
        if (!is_declaration(reading, attributes[i])) {
            put_node(reading, ATTRIBUTE, name_number(reading, attributes[i], true));
        }
    }
}

static void element_ends(void *data, const char *name)
{
    struct reading *reading = data;
    (void)name;
    reading->in_text = false;
    reading->open = reading->document->nodes[reading->open].parent;
}

/* Expat gives a text in pieces; all of them up to the next other node are one text node. */
static void text_comes(void *data, const char *text, int length)
{
    struct reading *reading = data;
    (void)text;
    if (length > 0 && !reading->in_text) {
        put_node(reading, TEXT, 0);
    }
}

static void comment_comes(void *data, const char *text)
{
    struct reading *reading = data;
    (void)text;
    if (!reading->in_doctype) {
        put_node(reading, COMMENT, 0);
    }
}

static void instruction_comes(void *data, const char *target, const char *text)
{
    struct reading *reading = data;
    (void)text;
    if (!reading->in_doctype) {
        put_node(reading, INSTRUCTION, name_number(reading, target, false));
    }
}

static void doctype_starts(void *data, const char *name, const char *system, const char *public, int internal)
{
    struct reading *reading = data;
    (void)name, (void)system, (void)public, (void)internal;
    reading->in_doctype = true;
}

static void doctype_ends(void *data)
{
    struct reading *reading = data;
    reading->in_doctype = false;
}

/* Without these two handlers expat would leave out the entities of other files without a word. */
static int other_file_comes(XML_Parser parser, const char *context, const char *base, const char *system,
                            const char *public)
{
    struct reading *reading = XML_GetUserData(parser);
    (void)context, (void)base, (void)system, (void)public;
    reading->entity_left = true;
    return XML_STATUS_ERROR;
}

static void entity_skipped(void *data, const char *name, int is_parameter)
{
    struct reading *reading = data;
    (void)name;
    if (!is_parameter) {
        reading->entity_left = true;
        XML_StopParser(reading->parser, XML_FALSE);
    }
}

static void set_handlers(XML_Parser parser, struct reading *reading)
{
    XML_SetUserData(parser, reading);
    XML_SetElementHandler(parser, element_starts, element_ends);
    XML_SetCharacterDataHandler(parser, text_comes);
    XML_SetCommentHandler(parser, comment_comes);
    XML_SetProcessingInstructionHandler(parser, instruction_comes);
    XML_SetDoctypeDeclHandler(parser, doctype_starts, doctype_ends);
    XML_SetExternalEntityRefHandler(parser, other_file_comes);
    XML_SetSkippedEntityHandler(parser, entity_skipped);
}

/* Hands the file to expat, a part at a time. False after a message. */
static bool parse_file(FILE *file, const char *path, struct reading *reading)
{
    enum { PART = 65536 };
    for (bool last = false; !last;) {
        void *part = XML_GetBuffer(reading->parser, PART);
        size_t length = part == NULL ? 0 : fread(part, 1, PART, file);
        if (part == NULL || ferror(file)) {
            complain("%s: %s", path, strerror(part == NULL ? ENOMEM : errno));
            return false;
        }
        last = length < PART && feof(file);
        if (XML_ParseBuffer(reading->parser, (int)length, last) != XML_STATUS_OK) {
            enum XML_Error error = XML_GetErrorCode(reading->parser);
            complain("%s: line %lu: %s", path, (unsigned long)XML_GetCurrentLineNumber(reading->parser),
                     reading->entity_left ? "an entity of another file, which is not read" : XML_ErrorString(error));
            return false;
        }
    }
    return true;
}

static int judged(const char *path, const struct reading *reading)
{
    size_t count = reading->document->count;
    if (count > SPINEBRIAR_MOST_NODES) {
        complain("%s: %zu nodes; a document has at most %d", path, count, SPINEBRIAR_MOST_NODES);
        return NO;
    }
    if (reading->memory_short) {
        complain("%s: %s", path, strerror(ENOMEM));
        return UNREADABLE;
    }
    if (reading->problem[0] != '\0') {
        complain("%s: %s", path, reading->problem);
        return NO;
    }
    return YES;
}

int read_document(FILE *file, const char *path, const struct names *names, struct document_options options,
                  struct document *document)
{
    struct reading reading = {.names = names, .options = options, .document = document};
    document->count = 0;
    document->added = 0;
    reading.parser = XML_ParserCreate(NULL);
    if (reading.parser == NULL) {
        complain("%s: %s", path, strerror(ENOMEM));
        return UNREADABLE;
    }
    set_handlers(reading.parser, &reading);
    put_node(&reading, ROOT, 0);
    bool parsed = parse_file(file, path, &reading);
    XML_ParserFree(reading.parser);
    return parsed ? judged(path, &reading) : UNREADABLE;
}

void free_document(struct document *document)
{
    for (size_t i = 0; i < document->added; i++) {
        free((char *)document->more[i].text);
    }
    document->added = 0;
}
