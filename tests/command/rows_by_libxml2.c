/* The rows of an XML file by libxml2, for against_libxml2.py: `kind parent NAME`, or `-` without a name. */
#include <libxml/parser.h>
#include <libxml/tree.h>
#include <stdio.h>

static int count;

static int put(int kind, int parent, const xmlChar *name)
{
    printf("%d %d %s\n", kind, parent, name == NULL ? "-" : (const char *)name);
    return count++;
}

static void walk(const xmlNode *node, int parent)
{
    int in_text = 0;
    for (; node != NULL; node = node->next) {
        int is_text = node->type == XML_TEXT_NODE || node->type == XML_CDATA_SECTION_NODE;
        if (is_text && !in_text && node->content != NULL && node->content[0] != '\0') {
            put(2, parent, NULL);
        } else if (node->type == XML_COMMENT_NODE) {
            put(3, parent, NULL);
        } else if (node->type == XML_PI_NODE) {
            put(4, parent, node->name);
        } else if (node->type == XML_ELEMENT_NODE) {
            int row = put(1, parent, node->name);
            for (const xmlAttr *attribute = node->properties; attribute != NULL; attribute = attribute->next) {
                put(5, row, attribute->name);
            }
            walk(node->children, row);
        }
        in_text = is_text && (in_text || (node->content != NULL && node->content[0] != '\0'));
    }
}

int main(int argc, char **argv)
{
    int how = XML_PARSE_NOENT | XML_PARSE_DTDATTR | XML_PARSE_NOCDATA | XML_PARSE_NONET;
    xmlDoc *document = argc == 2 ? xmlReadFile(argv[1], NULL, how) : NULL;
    if (document == NULL) {
        return 2;
    }
    put(0, 0, NULL);
    walk(document->children, 0);
    xmlFreeDoc(document);
    return 0;
}
