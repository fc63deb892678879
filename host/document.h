/* An XML file as the rows of a document. */
#ifndef HOST_DOCUMENT_H
#define HOST_DOCUMENT_H

#include <stdio.h>

#include "names.h"
#include "spinebriar.h"

/* The kinds of nodes. */
enum { ROOT, ELEMENT, TEXT, COMMENT, INSTRUCTION, ATTRIBUTE };

struct node {
    uint16_t kind, parent, name;
};

struct document {
    size_t count; /* of all nodes of the file; only the first SPINEBRIAR_MOST_NODES are in `nodes` */
    struct node nodes[SPINEBRIAR_MOST_NODES];
    unsigned long lines[SPINEBRIAR_MOST_NODES]; /* of the file, where the node, or an attribute's element, begins */
    size_t added;
    /* the names that the list lacks, with their numbers, in memory of their own */
    struct name more[SPINEBRIAR_MOST_NODES];
};

struct document_options {
    bool add;         /* number the names that the list lacks, after its lines */
    bool local_names; /* take the part after the prefix, and leave namespace declarations out */
};

/* Reads XML from an open file, called `path` in messages. YES; or, after a message, NO where the nodes are too many
   or a name is not as it must be, UNREADABLE where the file is no XML that can be read. */
int read_document(FILE *file, const char *path, const struct names *names, struct document_options options,
                  struct document *document);
void free_document(struct document *document);

#endif
