/* The path of a node from the root, as XPath writes it. */
#ifndef HOST_PATHS_H
#define HOST_PATHS_H

#include <stdio.h>

#include "document.h"

/* Of each node, its place from 1 among its parent's children of its kind and name, and how many these are. */
struct places {
    uint16_t place[SPINEBRIAR_MOST_NODES], of[SPINEBRIAR_MOST_NODES];
};

void number_places(const struct document *document, struct places *places);

/* Prints a path that selects this node alone, `/log/run[2]/@serial`: a place where there are several. */
void put_path(const struct document *document, const struct places *places, const struct names *names, size_t node,
              FILE *out);

#endif
