/* check --claim: whether a step of an accepted bundle says that one selector is contained in another. */
#include <string.h>

#include "commands.h"
#include "spinebriar.h"

/* A place in a selector is shown by a sign below it; a selector that is long or has bytes that no terminal should
   see is not shown. */
static void show_place(const char *selector, size_t place)
{
    enum { MOST = 100 };
    size_t length = strlen(selector);
    for (size_t i = 0; i < length; i++) {
        if (selector[i] < 0x20 || selector[i] >= 0x7f || length > MOST) {
            return;
        }
    }
    complain("%s", selector);
    complain("%*s^", (int)place, "");
}

void tell_selector(const char *selector, uint16_t answer, size_t place)
{
    const char *text = spinebriar_answer_text(answer);
    if (answer == SPINEBRIAR_OUTSIDE_GRAMMAR || answer == SPINEBRIAR_UNLISTED_NAME) {
        complain("selector refused at place %zu: %u, %s", place, answer, text);
        show_place(selector, place);
    } else {
        complain("selector refused: %u, %s", answer, text == NULL ? "?" : text);
    }
}

/* A selector that nests too deep, or has a row that the bundle lacks and that doesn't fit, is no row of the bundle. */
static int refuse_selector(const char *which, const char *selector, uint16_t answer, size_t place)
{
    complain("%s is refused", which);
    tell_selector(selector, answer, place);
    if (answer == SPINEBRIAR_TOO_DEEP || answer == SPINEBRIAR_TERMS_FULL) {
        complain("so %s is no row of the bundle, and no step says that OLD is contained in NEW", which);
    }
    return NO;
}

int claim_bytes(struct bytes bundle, const struct names *names, const char *old_selector, const char *new_selector,
                FILE *out)
{
    size_t value = 0, part = SPINEBRIAR_THE_CLAIM;
    uint16_t answer = spinebriar_claim(bundle.at, bundle.length, names->file.at, names->file.length,
                                       (const uint8_t *)old_selector, strlen(old_selector),
                                       (const uint8_t *)new_selector, strlen(new_selector), &value, &part);
    if (part == SPINEBRIAR_THE_BUNDLE) {
        int status = check_bytes(bundle, names, out);
        return status == YES ? NO : status;
    }
    if (part != SPINEBRIAR_THE_CLAIM) {
        bool old = part == SPINEBRIAR_OLD_SELECTOR;
        return refuse_selector(old ? "OLD" : "NEW", old ? old_selector : new_selector, answer, value);
    }
    bool yes = answer == SPINEBRIAR_ACCEPTED;
    int status = print_accepted(bundle, names, yes ? value : 0, out);
    if (status != YES) {
        return status;
    }
    if (!yes) {
        fputs("no step says that OLD is contained in NEW\n", out);
        return NO;
    }
    fprintf(out, "yes: step %zu says that OLD is contained in NEW\n", value);
    return YES;
}
