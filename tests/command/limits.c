/* The default limits of some selectors, for run.sh: the bound for chains of steps, the usual one else. */
#include <stdio.h>

#include "limit.h"

static const struct {
    const char *selector;
    size_t nodes;
    uint32_t limit;
} CASES[] = {
    {"mark", 512, 1},
    {"mark/zero", 7, 9},
    {"mark/zero", 512, 514},
    {"child::mark/descendant::*/..\n/@serial", 100, 304},
    {".//a", 10, 23},
    {"processing-instruction('a.b-c')/self::node()", 1, 3},
    {"/mark", 512, USUAL_LIMIT},
    {"mark[zero]", 512, USUAL_LIMIT},
    {"mark|zero", 512, USUAL_LIMIT},
    {"mark/zero[run]/log", 512, USUAL_LIMIT},
    {"mark/zero[", 512, USUAL_LIMIT},
    {" /mark", 512, USUAL_LIMIT},
    {" mark / zero ", 512, 514},
};

int main(void)
{
    int wrong = 0;
    for (size_t i = 0; i < sizeof CASES / sizeof *CASES; i++) {
        uint32_t limit = default_limit(CASES[i].selector, CASES[i].nodes);
        if (limit != CASES[i].limit) {
            printf("%s on %zu nodes: %u, not %u\n", CASES[i].selector, CASES[i].nodes, limit, CASES[i].limit);
            wrong = 1;
        }
    }
    return wrong;
}
