/* Spinebriar for a host in C. Link target/staticlib/libspinebriar.a, which tools/archive.sh makes for Linux on
   x86-64.

   Of every call: the number of the answer is the result, 0 for acceptance. A pointer may not be null, also where its
   length is 0; nothing writes to what is lent for reading meanwhile, and what is lent for writing overlaps nothing
   else. Nothing is kept between calls, so threads may call at the same time. A length is a number of elements. */
#ifndef SPINEBRIAR_H
#define SPINEBRIAR_H

#include <stddef.h>
#include <stdint.h>

#define SPINEBRIAR_VERSION "0.1.0"

/* Bytes of stack that are enough for a call: the most that tests/command/stack.c measured on the deepest inputs known,
   and some more. It lends lists that are indexed and makes steps by rule 59, also in the calls of spinebriar_file.
   spinebriar_read and spinebriar_read_line take the same. */
#define SPINEBRIAR_READ_STACK 65536
#define SPINEBRIAR_CLAIM_STACK 262144
#define SPINEBRIAR_SELECT_STACK 262144
#define SPINEBRIAR_FILE_STACK 327680

/* The limits: of a bundle its bytes, rows, steps and rules, the nodes of a document, the largest number
   of a name. More is refused by the call that is given it. */
enum {
    SPINEBRIAR_MOST_BYTES = 65536,
    SPINEBRIAR_MOST_ROWS = 1024,
    SPINEBRIAR_MOST_STEPS = 2048,
    SPINEBRIAR_MOST_RULE = 59,
    SPINEBRIAR_MOST_NODES = 512,
    SPINEBRIAR_MOST_NUMBER = 65535
};

#ifdef __cplusplus
extern "C" {
#endif

/* The number of an answer: 0 is acceptance, any other number a refusal. docs/FORMAT.md has the same list with each
   refusal's value. */
enum spinebriar_answer {
    SPINEBRIAR_ACCEPTED = 0,
    SPINEBRIAR_BAD_KIND = 1,
    SPINEBRIAR_BAD_FIELD = 2,
    SPINEBRIAR_TOO_DEEP = 3,
    SPINEBRIAR_NO_RULE = 4,
    SPINEBRIAR_BAD_SIDE = 5,
    SPINEBRIAR_BAD_PREMISE = 6,
    SPINEBRIAR_NOT_YIELDED = 7,
    SPINEBRIAR_BAD_DOCUMENT = 8,
    SPINEBRIAR_BAD_ARGUMENT = 9,
    SPINEBRIAR_WRONG_FORM = 10,
    SPINEBRIAR_TERMS_FULL = 11,
    SPINEBRIAR_ALREADY_HELD = 12,
    SPINEBRIAR_STEPS_FULL = 13,
    SPINEBRIAR_SHORT_MARKS = 14,
    SPINEBRIAR_LIMIT_PASSED = 15,
    SPINEBRIAR_SHORT_BUFFER = 16, /* the calls write's and file's */
    SPINEBRIAR_BAD_NAME = 17, /* the program tally's */
    SPINEBRIAR_OUTSIDE_GRAMMAR = 18, /* 18 and 19 are the call text's */
    SPINEBRIAR_UNLISTED_NAME = 19,
    SPINEBRIAR_BAD_POINT = 20, /* 20 and 21 are of points */
    SPINEBRIAR_POINTS_FULL = 21,
    SPINEBRIAR_NOT_NEXT = 22, /* 22 to 24 are of the register */
    SPINEBRIAR_BAD_RECORD = 23,
    SPINEBRIAR_FULL_OR_IN_USE = 24,
    SPINEBRIAR_BAD_LISTS = 25, /* 25 and 26 are the call replace's */
    SPINEBRIAR_NOT_COVERED = 26,
    SPINEBRIAR_NO_RECORD = 27 /* of a release */
};

/* What an answer says, in English; null for a number that no answer has. */
static inline const char *spinebriar_answer_text(uint16_t answer)
{
    switch (answer) {
    case SPINEBRIAR_ACCEPTED: return "accepted";
    case SPINEBRIAR_BAD_KIND: return "the kind of the row is above 11";
    case SPINEBRIAR_BAD_FIELD: return "a bad operand, axis, test, name or unused field";
    case SPINEBRIAR_TOO_DEEP: return "the term is nested deeper than 32";
    case SPINEBRIAR_NO_RULE: return "there is no rule of this number";
    case SPINEBRIAR_BAD_SIDE: return "the left or the right row is not held, or the two are of different sorts";
    case SPINEBRIAR_BAD_PREMISE: return "a premise is not a held step, or the rule takes none there";
    case SPINEBRIAR_NOT_YIELDED: return "the rule does not yield the step";
    case SPINEBRIAR_BAD_DOCUMENT: return "the document is empty, too long or has a bad row";
    case SPINEBRIAR_BAD_ARGUMENT: return "the context node is outside the document, or the row is not a held path";
    case SPINEBRIAR_WRONG_FORM: return "a line of the wrong form";
    case SPINEBRIAR_TERMS_FULL: return "the new rows do not fit in a session's 1,024";
    case SPINEBRIAR_ALREADY_HELD: return "the row is held already";
    case SPINEBRIAR_STEPS_FULL: return "the session holds 2,048 steps already";
    case SPINEBRIAR_SHORT_MARKS: return "the marks are shorter than the document";
    case SPINEBRIAR_LIMIT_PASSED: return "more visits are needed than the limit";
    case SPINEBRIAR_SHORT_BUFFER: return "the buffer is shorter than the bundle";
    case SPINEBRIAR_BAD_NAME: return "a 65th name, or a file that can't be opened";
    case SPINEBRIAR_OUTSIDE_GRAMMAR: return "the text is outside the grammar of selectors";
    case SPINEBRIAR_UNLISTED_NAME: return "a name of the text is not in the list";
    case SPINEBRIAR_BAD_POINT: return "no point has the name, or a point to be set has the name 0 or one in use";
    case SPINEBRIAR_POINTS_FULL: return "the session holds eight points already";
    case SPINEBRIAR_NOT_NEXT: return "the edition is not the next one of its series";
    case SPINEBRIAR_BAD_RECORD: return "the row or the step of the record is not as it must be";
    case SPINEBRIAR_FULL_OR_IN_USE: return "the register is full, or the return would drop a row or step in use";
    case SPINEBRIAR_BAD_LISTS: return "more than 64 old or new rows, or not as many steps as old rows";
    case SPINEBRIAR_NOT_COVERED: return "no step says that the old one is contained in a new one";
    case SPINEBRIAR_NO_RECORD: return "the register has no record at the place";
    default: return NULL;
    }
}

/* Reads a bundle: SPINEBRIAR_ACCEPTED if every line is accepted, else the number of the first refusal, 1 to 7 or 10 to
   13. An accepted bundle that says something else is no answer to the question whether one selector is contained in
   another: ask spinebriar_claim. */
uint16_t spinebriar_read(const uint8_t *bytes, size_t length);

/* The same; *value is the number of steps held, or the refused line, from 1. */
uint16_t spinebriar_read_line(const uint8_t *bytes, size_t length, size_t *value);

/* What an answer of spinebriar_claim is about. */
enum spinebriar_part {
    SPINEBRIAR_THE_CLAIM = 0,
    SPINEBRIAR_THE_BUNDLE = 1,
    SPINEBRIAR_OLD_SELECTOR = 2,
    SPINEBRIAR_NEW_SELECTOR = 3
};

/* Whether an accepted bundle has a step that says just that the old selector is contained in the new one, both as
   text, with the names of a list, one a line. *part says what the answer is about, and *value goes with it:
   - the claim: 0 is yes, and *value is the first such step, from 1; SPINEBRIAR_NOT_COVERED is no, no step says so, and
     *value is 1;
   - the bundle, which is refused: 1 to 7 or 10 to 13, and *value is the line, from 1;
   - the old or the new selector, which is refused: 18 or 19, and *value is a place in its text, from 0; 3, it nests
     too deep, or 11, its rows don't fit beside the bundle's and, for the new one, the old one's, and *value is 0.
     After 3 and 11 too no step of the bundle says so, since the selector is none of its rows. */
uint16_t spinebriar_claim(const uint8_t *bundle, size_t bundle_length, const uint8_t *names, size_t names_length,
                          const uint8_t *old_selector, size_t old_length,
                          const uint8_t *new_selector, size_t new_length, size_t *value, size_t *part);

/* Marks the nodes that a selector as text selects from a context node of a document, whose rows are lent as numbers,
   three a row: kind, parent, name. 0: *value is the visits made, marks[n] is 1 or 0 for each node n, and later bytes
   stay. Else all marks stay. The selector is judged first: 18 or 19, and *value is a place in its text, from 0; 3 or
   11, and *value is 0. Then the selection: 8, and *value is 0 for no rows, 512 for too many, or the first bad row; 9,
   the context node is outside the document, and *value is 1; 14 or 15, and *value is 0. */
uint16_t spinebriar_select(const uint8_t *names, size_t names_length, const uint8_t *selector, size_t length,
                           const uint16_t *document, size_t document_length, uint16_t context, uint32_t limit,
                           uint8_t *marks, size_t marks_length, size_t *value);

/* Makes calls, replay's lines term, step, names, text, point and return, from a fresh session, and writes the bundle of
   what is then held to the start of `out`. 0: *value is its length, and later bytes stay. Else all bytes stay: the
   number of the first refused line, 1 to 7, 10 to 13 or 18 to 21, and *value is the line, from 1; any other line, and
   one without newline, is 10. 16: no line is refused, and *value is the length that the bundle needs; 62,504 bytes are
   always enough. */
uint16_t spinebriar_file(const uint8_t *calls, size_t length, uint8_t *out, size_t out_length, size_t *value);

#ifdef __cplusplus
}
#endif

#endif
