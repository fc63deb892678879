#include "bytes.h"

#include <errno.h>
#include <stdio.h>
#include <stdlib.h>
#include <string.h>

/* Reads on to the end of the file, or to one byte more than `most`. */
static bool read_all(FILE *file, size_t most, struct bytes *out)
{
    size_t room = 4096;
    out->length = 0;
    out->at = malloc(room);
    while (out->at != NULL) {
        size_t ask = room - out->length;
        size_t left = most + 1 - out->length;
        out->length += fread(out->at + out->length, 1, ask < left ? ask : left, file);
        if (out->length > most || out->length < room) {
            return !ferror(file);
        }
        room *= 2;
        uint8_t *more = realloc(out->at, room);
        if (more == NULL) {
            free(out->at);
        }
        out->at = more;
    }
    errno = ENOMEM;
    return false;
}

bool read_bytes(const char *path, size_t most, struct bytes *file)
{
    bool standard = strcmp(path, "-") == 0;
    FILE *in = standard ? stdin : fopen(path, "rb");
    file->at = NULL;
    if (in == NULL) {
        complain("%s: %s", path, strerror(errno));
        return false;
    }
    bool done = read_all(in, most, file);
    if (!done) {
        complain("%s: %s", path, strerror(errno));
        free(file->at);
        file->at = NULL;
    }
    if (!standard) {
        fclose(in);
    }
    return done;
}
