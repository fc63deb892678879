#include "rules.h"

#include <stddef.h>

static const char *const RULES[] = {
    /* 1 */ "V <= p",
    /* 2 */ "p <= p; f => f",
    /* 3 */ "p <= r from p <= q, q <= r; f => h from f => g, g => h",
    /* 4 */ "p <= q|r from p <= q",
    /* 5 */ "p <= q|r from p <= r",
    /* 6 */ "p|q <= r from p <= r, q <= r",
    /* 7 */ "p/q <= r/s from p <= r, q <= s",
    /* 8 */ "a::N <= b::M if a is below b, N below M",
    /* 9 */ "p[f] <= r[g] from p <= r, f => g",
    /* 10 */ ("p/a::N <= r/b::M, b from 3 to 10, from a::N <= b::M, p <= r/b::*; "
              "p/a::N <= r/b::M, b from 3 to 10, from a::N <= b::M, p <= r/b::node()"),
    /* 11 */ "p/q <= r/s from p[some q] <= r, q <= s",
    /* 12 */ "(p in q) => (r in s) from r <= p, q <= s",
    /* 13 */ "not f => not g from g => f",
    /* 14 */ "f => true",
    /* 15 */ "false => f",
    /* 16 */ "f and g => h from g => h",
    /* 17 */ "f and g => h from f => h",
    /* 18 */ "f => g and h from f => g, f => h",
    /* 19 */ "f => g or h from f => g",
    /* 20 */ "f => g or h from f => h",
    /* 21 */ "f or g => h from f => h, g => h",
    /* 22 */ ("(child::node() in V) => (descendant::N in V); "
              "(child::* in V) => (descendant::N in V) if N is a name or *"),
    /* 23 */ "(parent::node() in V) => (ancestor::N in V); (parent::* in V) => (ancestor::N in V) if N is a name or *",
    /* 24 */ "p <= V from true => (p in V)",
    /* 25 */ "p[f and g] <= V from f => not g",
    /* 26 */ "p/a::N <= R/descendant::M if N is below M, N isn't node() and a isn't 11",
    /* 27 */ "p = p[true]",
    /* 28 */ "p = ./p",
    /* 29 */ "p = p/.",
    /* 30 */ "p[false] = V",
    /* 31 */ "p[f][g] = p[f and g]",
    /* 32 */ "p[f]|p[g] = p[f or g]",
    /* 33 */ "(p|q)/r = p/r|q/r",
    /* 34 */ "p/(q|r) = p/q|p/r",
    /* 35 */ "(p|q)[f] = p[f]|q[f]",
    /* 36 */ "(p/q)/r = p/(q/r)",
    /* 37 */ "(p/q)[f] = p/(q[f])",
    /* 38 */ "(p/q in V) = (p[some q] in V)",
    /* 39 */ "not (f and g) = not f or not g",
    /* 40 */ "not (f or g) = not f and not g",
    /* 41 */ "f and (g or h) = (f and g) or (f and h)",
    /* 42 */ "f or (g and h) = (f or g) and (f or h)",
    /* 43 */ "not not f = f",
    /* 44 */ "not true = false",
    /* 45 */ "not false = true",
    /* 46 */ "((p|q) in r) = (p in r) and (q in r)",
    /* 47 */ "f and not f = false",
    /* 48 */ "child::N[f]/parent::M = self::M[some child::N[f]]",
    /* 49 */ "descendant::N[f]/parent::M = descendant-or-self::M[some child::N[f]]",
    /* 50 */ "withdrawn: it yields nothing",
    /* 51 */ "descendant::N[f]/child::M <= descendant::M[some parent::N[f]]",
    /* 52 */ "descendant-or-self::N = descendant::N|self::N",
    /* 53 */ "ancestor-or-self::N = ancestor::N|self::N",
    /* 54 */ "(ancestor-or-self::node()/following-sibling::node())/descendant-or-self::N <= following::N",
    /* 55 */ "preceding::N = (ancestor-or-self::node()/preceding-sibling::node())/descendant-or-self::N",
    /* 56 */ "p/R <= R",
    /* 57 */ "R <= ancestor-or-self::node()",
    /* 58 */ "a::node()/self::N = a::N if a isn't 11",
    /* 59 */ "r <= r[some w], w being r's way back",
};
enum { RULE_COUNT = sizeof RULES / sizeof *RULES };

const char *rule_text(uint16_t rule)
{
    return rule >= 1 && rule <= RULE_COUNT ? RULES[rule - 1] : NULL;
}
