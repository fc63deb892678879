/* Answers selections by libxml2. Needs libxml2-dev.
 *
 *     cc -O2 libxml2.c $(xml2-config --cflags --libs) -o libxml2 && ./libxml2 < QUESTIONS
 *
 * Questions and answers are those of Engines.java, but for names. */

#include <libxml/parser.h>
#include <libxml/xpath.h>
#include <stdio.h>
#include <stdlib.h>
#include <string.h>

enum { MOST_NODES = 65536 };

static xmlNodePtr nodes[MOST_NODES];
static long count;

static void fail(const char *what, const char *line) {
    fprintf(stderr, "%s: %s\n", what, line);
    exit(1);
}

static int kind_of(xmlNodePtr node) {
    switch (node->type) {
    case XML_DOCUMENT_NODE: return 0;
    case XML_ELEMENT_NODE: return 1;
    case XML_TEXT_NODE: return 2;
    case XML_COMMENT_NODE: return 3;
    case XML_PI_NODE: return 4;
    default: fail("node type", (const char *)node->name); return -1;
    }
}

/* Numbers the node and what is below it in document order, and prints the rows. A node's number is kept in _private. */
static void add(xmlNodePtr node, long parent) {
    long number = count;
    int kind = kind_of(node);
    if (count == MOST_NODES) fail("too many nodes", "");
    nodes[count++] = node;
    node->_private = (void *)number;
    int named = kind == 1 || (kind == 4 && strcmp((const char *)node->name, "i"));
    printf("%s%d %ld %s", number ? " " : "", kind, parent, named ? (const char *)node->name + 1 : "0");
    for (xmlNodePtr child = node->children; child; child = child->next) add(child, number);
}

static void answer(xmlXPathContextPtr context, long number, const char *xpath) {
    static char selected[MOST_NODES];
    memset(selected, 0, (size_t)count);
    context->node = nodes[number];
    xmlXPathObjectPtr result = xmlXPathEvalExpression((const xmlChar *)xpath, context);
    if (!result || result->type != XPATH_NODESET) fail("no node set", xpath);
    for (int i = 0; result->nodesetval && i < result->nodesetval->nodeNr; i++)
        selected[(long)result->nodesetval->nodeTab[i]->_private] = 1;
    xmlXPathFreeObject(result);
    const char *space = "";
    for (long i = 0; i < count; i++)
        if (selected[i]) printf("%s%ld", space, i), space = " ";
    printf("\n");
}

static void quiet(void *context, xmlErrorPtr error) {
    (void)context;
    (void)error;
}

static void parses(const char *xpath) {
    xmlSetStructuredErrorFunc(NULL, quiet);
    xmlXPathCompExprPtr compiled = xmlXPathCompile((const xmlChar *)xpath);
    printf("%s\n", compiled ? "yes" : "no");
    xmlXPathFreeCompExpr(compiled);
}

int main(void) {
    xmlDocPtr document = NULL;
    xmlXPathContextPtr context = NULL;
    char *line = NULL;
    size_t room = 0;
    for (ssize_t length; (length = getline(&line, &room, stdin)) > 0;) {
        line[length - 1] = 0;
        if (strncmp(line, "document ", 9) == 0) {
            xmlXPathFreeContext(context);
            xmlFreeDoc(document);
            document = xmlReadMemory(line + 9, (int)(length - 10), NULL, NULL, XML_PARSE_HUGE);
            if (!document) fail("no document", line);
            context = xmlXPathNewContext(document);
            count = 0;
            add((xmlNodePtr)document, 0);
            printf("\n");
        } else if (strncmp(line, "parses ", 7) == 0) {
            parses(line + 7);
        } else {
            char *end;
            long number = strtol(line + 7, &end, 10);
            answer(context, number, end + 1);
        }
    }
    return 0;
}
