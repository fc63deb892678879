/* The subcommands. Each prints its results to `out`, messages to standard error, and gives the exit status. */
#ifndef HOST_COMMANDS_H
#define HOST_COMMANDS_H

#include <stdio.h>

#include "bytes.h"
#include "document.h"
#include "names.h"

struct options {
    const char *file;                        /* the bundle, the XML file or the calls */
    const char *names;                       /* the list of names, or null */
    const char *selector;                    /* select's */
    const char *old_selector, *new_selector; /* --claim's, or null */
    uint32_t from, limit;                    /* the context node; the limit where `limited` */
    bool limited, add, local_names;
};

int check_command(const struct options *options, FILE *out);
int explain_command(const struct options *options, FILE *out);
int rows_command(const struct options *options, FILE *out);
int select_command(const struct options *options, FILE *out);
int file_command(const struct options *options, FILE *out);

/* What check and explain print of a bundle's bytes. */
int check_bytes(struct bytes bundle, const struct names *names, FILE *out);
int explain_bytes(struct bytes bundle, const struct names *names, FILE *out);

/* That a bundle, which is accepted, is so, and what a step of it says; of no step for 0. */
enum { LAST_STEP = 65536 };
int print_accepted(struct bytes bundle, const struct names *names, size_t number, FILE *out);

/* What check --claim prints of them. */
int claim_bytes(struct bytes bundle, const struct names *names, const char *old_selector, const char *new_selector,
                FILE *out);

/* The nodes of a document that select finds: YES, with a mark of 1 or 0 for each, or NO after a message. And what it
   prints of them. */
int select_nodes(const struct document *document, const struct names *names, const struct options *options,
                 uint8_t marks[SPINEBRIAR_MOST_NODES]);
void print_nodes(const struct document *document, const struct names *names, const uint8_t marks[SPINEBRIAR_MOST_NODES],
                 FILE *out);

/* What file prints of calls, replay's lines; `path` is for messages. */
int file_bytes(struct bytes calls, const char *path, FILE *out);

/* The list of names and the document of the options' files; with --add the list, in memory, has all names of the
   document. YES, and the caller frees both; or another status after a message, with nothing to free. */
int load_document(const struct options *options, struct names *names, struct document *document);

/* Puts the names that --add added at the end of the list's file, and says which numbers they have. YES, or another
   status after a message. */
int store_added(const struct options *options, const struct names *names, const struct document *document);

/* A message that a selector is refused, with the place in it where the answer's value is one. */
void tell_selector(const char *selector, uint16_t answer, size_t place);

#endif
