/* The rows and steps of a bundle's lines. What is accepted is spinebriar_read_line's to say; this only takes the
   numbers apart. */
#ifndef HOST_BUNDLE_H
#define HOST_BUNDLE_H

#include "bytes.h"
#include "spinebriar.h"

/* The kinds of rows. */
enum {
    VOID_ROW, ROOT_ROW, STEP_ROW, UNION_ROW, COMPOSITION_ROW, FILTER_ROW,
    TRUE_ROW, FALSE_ROW, NOT_ROW, AND_ROW, OR_ROW, INCLUSION_ROW
};

struct row {
    uint16_t kind, a, b, c;
};

struct step {
    uint16_t rule, left, right, first, second;
};

struct bundle {
    size_t row_count, step_count;
    struct row rows[SPINEBRIAR_MOST_ROWS];
    struct step steps[SPINEBRIAR_MOST_STEPS];
};

/* How many lines a text has; a last one without a newline counts. */
size_t lines_in(const uint8_t *bytes, size_t length);

/* Where line n, from 1, starts; the length where there is no such line. */
size_t line_start(const uint8_t *bytes, size_t length, size_t line);

/* Line n, from 1, as a terminal may show it: cut where it is long, with `?` for what can't be printed, or `missing`.
   Of a line of the wrong form it is said if its newline is missing or it has a carriage return, which nobody sees. */
enum { SHOWN_LINE = 120 };
void show_line(struct bytes text, size_t line, bool wrong_form, char shown[SHOWN_LINE]);

/* The rows and steps of a text whose lines but the last one are accepted, and whose last one is of the right form.
   A line that is not so ends it. */
void parse_bundle(const uint8_t *bytes, size_t length, struct bundle *bundle);

/* Reads the bundle in a file; false after a message. More than SPINEBRIAR_MOST_BYTES are not read: no bundle is so
   long. */
bool read_bundle(const char *path, struct bytes *file);

#endif
