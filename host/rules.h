/* The rules as docs/SPECIFICATION.md writes them. tools/format_check.py holds them against the specifications. */
#ifndef HOST_RULES_H
#define HOST_RULES_H

#include <stdint.h>

/* The forms of a rule from 1 to 59. */
const char *rule_text(uint16_t rule);

#endif
