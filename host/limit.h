/* The limit of visits that select takes where none is given. */
#ifndef HOST_LIMIT_H
#define HOST_LIMIT_H

#include <stddef.h>
#include <stdint.h>

/* For selectors that the bound says nothing of. */
enum { USUAL_LIMIT = 10000000 };

/* For a selector of k steps alone, without filters, unions or a leading `/`, on n nodes: the bound of
   docs/SPECIFICATION.md, Visits, 1 + (k - 1) × (n + 1), so that no selection passes it. Else USUAL_LIMIT. Nothing has to be believed of it: a selection that
   passes its limit is refused. */
uint32_t default_limit(const char *selector, size_t nodes);

#endif
