/* A list of names: the name on line n has the number n, from 1 to 65535. Of two equal lines the first counts; a
   line that is no name only takes up its number; the last line may lack its newline. A name is ASCII letters,
   digits, `_`, `-` and `.`, and begins with a letter or `_`. */
#ifndef HOST_NAMES_H
#define HOST_NAMES_H

#include "bytes.h"
#include "spinebriar.h"

enum { MOST_NAMES_BYTES = 1 << 24 };

struct name {
    const char *text;
    size_t length;
    uint16_t number;
};

struct names {
    struct bytes file;
    size_t stored; /* so many of these bytes stand in the file, the others are to be added */
    size_t lines;
    struct name *by_line; /* line n's at n - 1, up to SPINEBRIAR_MOST_NUMBER, with number 0 where it has none */
    struct name *by_text; /* those that have a number, sorted */
    size_t count;
};

/* How long the longest name is that the text begins with; 0 where it begins with none. */
size_t name_length(const char *text, size_t length);
bool is_name(const char *text, size_t length);

/* Takes over the file's bytes. False where memory is short; the names can be freed all the same. */
bool names_of(struct bytes file, struct names *names);

/* The names of a file. False, after a message, where it can't be read, is too long, begins with a byte order mark, has
   a carriage return or a blank at a line's end, or bytes that are no text. */
bool read_names(const char *path, struct names *names);
void free_names(struct names *names);

/* The number of a name; 0 where the list lacks it. */
uint16_t number_of(const struct names *names, const char *text, size_t length);

/* The name of a number; null where the list has none. */
const struct name *name_of(const struct names *names, uint16_t number);

/* Puts names at the end of the list in memory. False where memory is short; it can be freed all the same. */
bool extend_names(struct names *names, const struct name *more, size_t count);

/* Puts the names by which the list was extended at the end of its file, which is as it was where that fails. False,
   after a message, also where the file is no longer the one that was read, since they would have other numbers. */
bool store_names(const char *path, const struct names *names);

#endif
