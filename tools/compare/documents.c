/* Answers selections on one document of any size by libxml2. Needs libxml2-dev.
 *
 *     cc -O2 documents.c $(xml2-config --cflags --libs) -o documents && ./documents FILE < QUESTIONS
 *
 * A question is a line: a context node's number, a space and an XPath. Its answer is a line too: the numbers of the
 * selected nodes, or `late` where libxml2 takes more than two seconds. Nodes are numbered in document order from the
 * root, 0, an element's attributes behind it. The first line printed is how many there are. */

#include <libxml/parser.h>
#include <libxml/xpath.h>
#include <signal.h>
#include <stdio.h>
#include <stdlib.h>
#include <string.h>
#include <sys/wait.h>
#include <unistd.h>

enum { SECONDS = 2 };

static void **nodes;
static long count, room;

static void fail(const char *what, const char *line) {
    fprintf(stderr, "%s: %s\n", what, line);
    exit(1);
}

static void number(void *node, void **number_of) {
    if (count == room) {
        room = room ? 2 * room : 1024;
        nodes = realloc(nodes, (size_t)room * sizeof *nodes);
        if (!nodes) fail("no memory", "");
    }
    *number_of = (void *)count;
    nodes[count++] = node;
}

/* Numbers what is below the node, without recursion: a document may be deep. */
static void number_all(xmlNodePtr top) {
    xmlNodePtr node = top;
    for (;;) {
        number(node, &node->_private);
        if (node->type == XML_ELEMENT_NODE)
            for (xmlAttrPtr each = node->properties; each; each = each->next) number(each, &each->_private);
        if (node->children) {
            node = node->children;
            continue;
        }
        while (node != top && !node->next) node = node->parent;
        if (node == top) return;
        node = node->next;
    }
}

static void answer(xmlXPathContextPtr context, long from, const char *xpath) {
    static char *selected;
    if (!selected) selected = malloc((size_t)count);
    if (!selected || from < 0 || from >= count) fail("no such node", xpath);
    memset(selected, 0, (size_t)count);
    context->node = nodes[from];
    xmlXPathObjectPtr result = xmlXPathEvalExpression((const xmlChar *)xpath, context);
    if (!result || result->type != XPATH_NODESET) fail("no node set", xpath);
    for (int i = 0; result->nodesetval && i < result->nodesetval->nodeNr; i++)
        selected[(long)result->nodesetval->nodeTab[i]->_private] = 1;
    xmlXPathFreeObject(result);
    const char *space = "";
    for (long i = 0; i < count; i++)
        if (selected[i]) printf("%s%ld", space, i), space = " ";
    printf("\n");
}

/* In a process of its own, which an alarm ends. */
static void answer_in_time(xmlXPathContextPtr context, long from, const char *xpath) {
    int status;
    fflush(stdout);
    pid_t child = fork();
    if (child < 0) fail("no process", xpath);
    if (child == 0) {
        alarm(SECONDS);
        answer(context, from, xpath);
        fflush(stdout);
        _exit(0);
    }
    if (waitpid(child, &status, 0) != child) fail("no status", xpath);
    if (WIFSIGNALED(status) && WTERMSIG(status) == SIGALRM) printf("late\n");
    else if (!WIFEXITED(status) || WEXITSTATUS(status)) fail("no answer", xpath);
}

int main(int arguments, char **words) {
    if (arguments != 2) fail("one file", "");
    xmlDocPtr document = xmlReadFile(words[1], NULL, XML_PARSE_HUGE);
    if (!document) fail("no document", words[1]);
    xmlXPathContextPtr context = xmlXPathNewContext(document);
    number_all((xmlNodePtr)document);
    printf("%ld\n", count);
    char *line = NULL;
    size_t size = 0;
    for (ssize_t length; (length = getline(&line, &size, stdin)) > 0;) {
        char *end;
        line[length - 1] = 0;
        long from = strtol(line, &end, 10);
        answer_in_time(context, from, end + 1);
    }
    return 0;
}
