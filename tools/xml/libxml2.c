/* Reads a batch of documents by libxml2, with namespaces, and prints of each its number, the count of its rows and a
   checksum of them; or "refused", the line and the reason. With an argument it only counts rows. */
#include "sums.h"

#include <libxml/parser.h>
#include <libxml/tree.h>
#include <stdbool.h>

struct reading {
    bool only_counts;
    unsigned count;
    unsigned rows;
};

static unsigned put(struct reading *reading, unsigned kind, unsigned parent, const xmlChar *name, const xmlNs *space)
{
    if (!reading->only_counts) {
        reading->rows = sum_row(reading->rows, kind, parent, name == NULL ? "-" : (const char *)name,
                                space != NULL && space->href != NULL && space->href[0] != '\0'
                                    ? (const char *)space->href : "-");
    }
    return reading->count++;
}

static bool is_text(const xmlNode *node)
{
    return node != NULL && (node->type == XML_TEXT_NODE || node->type == XML_CDATA_SECTION_NODE);
}

static unsigned put_node(struct reading *reading, const xmlNode *node, unsigned parent)
{
    if (node->type == XML_COMMENT_NODE) {
        return put(reading, COMMENT, parent, NULL, NULL);
    }
    if (node->type == XML_PI_NODE) {
        return put(reading, INSTRUCTION, parent, node->name, NULL);
    }
    unsigned row = put(reading, ELEMENT, parent, node->name, node->ns);
    for (const xmlAttr *attribute = node->properties; attribute != NULL; attribute = attribute->next) {
        put(reading, ATTRIBUTE, row, attribute->name, attribute->ns);
    }
    return row;
}

/* The rows of a tree, by a walk with no recursion. */
static void put_tree(struct reading *reading, const xmlDoc *document)
{
    size_t room = 64, depth = 0;
    unsigned *open = malloc(room * sizeof *open);
    open[0] = 0;
    const xmlNode *node = document->children;
    bool in_text = false;
    while (node != NULL) {
        bool goes_down = false;
        if (is_text(node)) {
            if (!in_text && node->content != NULL && node->content[0] != '\0') {
                put(reading, TEXT, open[depth], NULL, NULL);
                in_text = true;
            }
        } else if (node->type == XML_COMMENT_NODE || node->type == XML_PI_NODE || node->type == XML_ELEMENT_NODE) {
            unsigned row = put_node(reading, node, open[depth]);
            in_text = false;
            if (node->type == XML_ELEMENT_NODE && node->children != NULL) {
                if (++depth == room) {
                    open = realloc(open, (room *= 2) * sizeof *open);
                }
                open[depth] = row;
                goes_down = true;
            }
        }
        if (goes_down) {
            node = node->children;
            continue;
        }
        while (node->next == NULL && node->parent != (const xmlNode *)document) {
            node = node->parent;
            depth--;
            in_text = false;
        }
        node = node->next;
    }
    free(open);
}

static void say_nothing(void *context, const char *message, ...)
{
    (void)context, (void)message;
}

int main(int argc, char **argv)
{
    size_t length;
    char *bytes;
    struct reading reading = {.only_counts = argc > 1};
    int options = XML_PARSE_NOENT | XML_PARSE_DTDATTR | XML_PARSE_NOCDATA | XML_PARSE_NONET | XML_PARSE_NOERROR |
                  XML_PARSE_NOWARNING | (reading.only_counts ? XML_PARSE_HUGE : 0);
    (void)argv;
    xmlSetGenericErrorFunc(NULL, say_nothing);
    for (unsigned number = 0; (bytes = next_document(&length)) != NULL; number++) {
        xmlParserCtxt *context = xmlNewParserCtxt();
        xmlDoc *document = xmlCtxtReadMemory(context, bytes, (int)length, NULL, NULL, options);
        reading.count = 0;
        reading.rows = EMPTY_SUM;
        if (document == NULL || !context->wellFormed || !context->nsWellFormed) {
            const xmlError *error = xmlCtxtGetLastError(context);
            char *message = error == NULL || error->message == NULL ? strdup("?") : strdup(error->message);
            message[strcspn(message, "\n")] = '\0';
            printf("%u refused %d: %s\n", number, error == NULL ? 0 : error->line, message);
            free(message);
        } else {
            put(&reading, ROOT, 0, NULL, NULL);
            put_tree(&reading, document);
            printf("%u %u %u\n", number, reading.count, reading.rows);
        }
        xmlFreeDoc(document);
        xmlFreeParserCtxt(context);
        free(bytes);
    }
    return 0;
}
