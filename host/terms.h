/* Terms and claims in the notation of docs/SPECIFICATION.md, Rules. */
#ifndef HOST_TERMS_H
#define HOST_TERMS_H

#include <stdio.h>

#include "bundle.h"
#include "names.h"

/* A term above this width is shown by its row, as `{12}`, and printed once, as `{12} = ..`, before the line that
   needs it. */
enum { MOST_WIDTH = 80 };

struct shown {
    const struct bundle *bundle;
    const struct names *names; /* without a name a number is shown as `#7` */
    FILE *out;
    size_t width[SPINEBRIAR_MOST_ROWS];
    bool looked_at[SPINEBRIAR_MOST_ROWS];
};

/* Prepares to show the rows of the bundle. */
void show_rows(struct shown *shown, const struct bundle *bundle, const struct names *names, FILE *out);

/* Prints the rows that the term of this row is shown by and that were not printed yet, operands first. */
void define_row(struct shown *shown, uint16_t row);

/* Prints `left <= right`, or `left => right` for qualifiers. */
void show_claim(struct shown *shown, uint16_t left, uint16_t right);

/* Both for a step's claim. */
void define_step(struct shown *shown, const struct step *step);

#endif
