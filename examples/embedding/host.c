/* Reads the bundle in the file that the command line names, and prints the number of the answer: 0, or the first
   refusal, of which it says on standard error what it is.

   At the root of the repository:

       tools/archive.sh spinebriar
       cc -Wall -Wextra -Iinclude -o target/host examples/embedding/host.c target/staticlib/libspinebriar.a
       target/host FILE
*/
#include <stdio.h>
#include <stdlib.h>

#include "spinebriar.h"

/* The bytes of a file, in memory that the caller frees; null where it can't be read. */
static uint8_t *bytes_of(const char *path, size_t *length)
{
    FILE *file = fopen(path, "rb");
    if (file == NULL) {
        return NULL;
    }
    size_t room = 4096;
    uint8_t *bytes = malloc(room);
    *length = 0;
    while (bytes != NULL) {
        *length += fread(bytes + *length, 1, room - *length, file);
        if (*length < room) {
            break;
        }
        room *= 2;
        uint8_t *more = realloc(bytes, room);
        if (more == NULL) {
            free(bytes);
        }
        bytes = more;
    }
    if (ferror(file)) {
        free(bytes);
        bytes = NULL;
    }
    fclose(file);
    return bytes;
}

int main(int argc, char **argv)
{
    if (argc != 2) {
        fprintf(stderr, "usage: %s FILE\n", argv[0]);
        return 2;
    }
    size_t length;
    uint8_t *bytes = bytes_of(argv[1], &length);
    if (bytes == NULL) {
        perror(argv[1]);
        return 2;
    }
    uint16_t answer = spinebriar_read(bytes, length);
    free(bytes);
    printf("%u\n", (unsigned)answer);
    if (answer != SPINEBRIAR_ACCEPTED) {
        fprintf(stderr, "%s: %s\n", argv[1], spinebriar_answer_text(answer));
    }
    return 0;
}
