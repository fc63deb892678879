/* rows: an XML file as the rows of a document; and the reading of such a file with its list of names. */
#include <errno.h>
#include <string.h>

#include "commands.h"

/* The document of the file, or of standard input for "-". */
static int open_document(const struct options *options, const struct names *names, struct document *document)
{
    struct document_options how = {.add = options->add, .local_names = options->local_names};
    bool standard = strcmp(options->file, "-") == 0;
    FILE *file = standard ? stdin : fopen(options->file, "rb");
    if (file == NULL) {
        complain("%s: %s", options->file, strerror(errno));
        return UNREADABLE;
    }
    int status = read_document(file, options->file, names, how, document);
    if (!standard) {
        fclose(file);
    }
    return status;
}

int load_document(const struct options *options, struct names *names, struct document *document)
{
    if (!read_names(options->names, names)) {
        return UNREADABLE;
    }
    document->added = 0;
    int status = open_document(options, names, document);
    if (status == YES && document->added > 0 && !extend_names(names, document->more, document->added)) {
        complain("%s", strerror(ENOMEM));
        status = UNREADABLE;
    }
    if (status != YES) {
        free_document(document);
        free_names(names);
    }
    return status;
}

int store_added(const struct options *options, const struct names *names, const struct document *document)
{
    if (document->added > 0 && !store_names(options->names, names)) {
        return UNREADABLE;
    }
    for (size_t i = 0; i < document->added; i++) {
        complain("%s: added %s, number %u", options->names, document->more[i].text, document->more[i].number);
    }
    return YES;
}

int rows_command(const struct options *options, FILE *out)
{
    struct names names;
    struct document document;
    int status = load_document(options, &names, &document);
    if (status != YES) {
        return status;
    }
    status = store_added(options, &names, &document);
    for (size_t i = 0; status == YES && i < document.count; i++) {
        const struct node *node = &document.nodes[i];
        fprintf(out, "%u %u %u\n", node->kind, node->parent, node->name);
    }
    free_document(&document);
    free_names(&names);
    return status;
}
