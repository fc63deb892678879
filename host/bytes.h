/* The bytes of a file, and messages. */
#ifndef HOST_BYTES_H
#define HOST_BYTES_H

#include <stdbool.h>
#include <stddef.h>
#include <stdint.h>

/* Exit statuses. */
enum { YES = 0, NO = 1, UNREADABLE = 2 };

struct bytes {
    uint8_t *at;
    size_t length;
};

/* A message on standard error, as `spinebriar: ..` and a newline. */
void complain(const char *format, ...) __attribute__((format(printf, 1, 2)));

/* Reads the file, or standard input for "-", into memory that the caller frees: at most `most` bytes and one more,
   so that a length above `most` says that the file is longer. False, after a message, where it can't be read. */
bool read_bytes(const char *path, size_t most, struct bytes *file);

#endif
