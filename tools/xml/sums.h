/* What the harnesses share: the batch on standard input, each document behind a line with its length in bytes, and the
   checksums of rows that crates/xml_rows prints, FNV-1a. */
#include <stdio.h>
#include <stdlib.h>
#include <string.h>

enum { ROOT, ELEMENT, TEXT, COMMENT, INSTRUCTION, ATTRIBUTE };

static unsigned sum(unsigned start, const void *bytes, size_t length)
{
    const unsigned char *b = bytes;
    while (length-- > 0) {
        start = (start ^ *b++) * 16777619u;
    }
    return start;
}

static const unsigned EMPTY_SUM = 2166136261u;

static unsigned sum_row(unsigned start, unsigned kind, unsigned parent, const char *name, const char *space)
{
    start = sum(start, &kind, sizeof kind);
    start = sum(start, &parent, sizeof parent);
    start = sum(start, name, strlen(name));
    start = sum(start, " ", 1);
    start = sum(start, space, strlen(space));
    return sum(start, " ", 1);
}

/* The next document of the batch, to be freed; NULL at its end. */
static char *next_document(size_t *length)
{
    char line[64];
    if (fgets(line, sizeof line, stdin) == NULL) {
        return NULL;
    }
    *length = strtoul(line, NULL, 10);
    char *bytes = malloc(*length + 1);
    if (bytes == NULL || fread(bytes, 1, *length, stdin) != *length) {
        exit(3);
    }
    bytes[*length] = '\0';
    return bytes;
}
