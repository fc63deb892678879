/* Times read on bundles: for each file the answer and the shortest of many runs, in microseconds, of tools/reference
   and of ours.

       reading FILE.. */
#include <stdint.h>
#include <stdio.h>
#include <stdlib.h>
#include <string.h>
#include <time.h>

#include "spinebriar.h"

uint16_t reference_read(const uint8_t *bytes, size_t length);

enum { RUNS = 300, MOST = 1 << 20 };

/* No more runs once they have taken this long together. */
static const double ENOUGH = 3e5;

static double now(void) {
    struct timespec t;
    clock_gettime(CLOCK_MONOTONIC, &t);
    return (double)t.tv_sec * 1e6 + (double)t.tv_nsec / 1e3;
}

/* The shortest run; the answer must be the same in each. */
static double shortest(uint16_t (*call)(const uint8_t *, size_t), const uint8_t *bytes, size_t length,
                       uint16_t *answer) {
    double best = 1e18, first = now();
    *answer = call(bytes, length);
    for (int i = 0; i < RUNS && (i < 3 || now() - first < ENOUGH); i++) {
        double start = now();
        uint16_t given = call(bytes, length);
        double took = now() - start;
        if (given != *answer) abort();
        if (took < best) best = took;
    }
    return best;
}

int main(int argc, char **argv) {
    static uint8_t bytes[MOST];
    printf("| bundle | bytes | answer | reference min | ours min | ratio |\n|---|---|---|---|---|---|\n");
    for (int i = 1; i < argc; i++) {
        FILE *file = fopen(argv[i], "rb");
        if (!file) return perror(argv[i]), 1;
        size_t length = fread(bytes, 1, MOST, file);
        fclose(file);
        uint16_t theirs, ours;
        double reference = shortest(reference_read, bytes, length, &theirs);
        double time = shortest(spinebriar_read, bytes, length, &ours);
        if (theirs != ours) return fprintf(stderr, "%s: %u, by the reference %u\n", argv[i], ours, theirs), 1;
        const char *slash = strrchr(argv[i], '/'), *name = slash ? slash + 1 : argv[i];
        printf("| %s | %zu | %u | %.2f | %.2f | %.2f |\n", name, length, ours, reference, time, time / reference);
    }
    return 0;
}
