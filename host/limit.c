#include "limit.h"

#include <string.h>

/* In a selector without filters and unions each `/` begins a step, and the second one of `//` stands for a step too.
   One that begins with `/` begins with R, of which the bound says nothing. */
uint32_t default_limit(const char *selector, size_t nodes)
{
    const char *start = selector + strspn(selector, " \t\r\n");
    if (*start == '/' || strpbrk(start, "[|") != NULL) {
        return USUAL_LIMIT;
    }
    size_t steps = 1;
    for (const char *at = start; *at != '\0'; at++) {
        steps += *at == '/';
    }
    size_t bound = 1 + (steps - 1) * (nodes + 1);
    return bound < USUAL_LIMIT ? (uint32_t)bound : USUAL_LIMIT;
}
