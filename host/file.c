/* file: the bundle of what calls, as replay's lines, leave held. */
#include <errno.h>
#include <stdlib.h>
#include <string.h>

#include "bundle.h"
#include "commands.h"
#include "spinebriar.h"

/* The line begins with none of the words that file takes. */
static bool is_other_word(const char *shown)
{
    static const char *const WORDS[] = {"term", "step", "names", "text", "point", "return"};
    bool other = true;
    for (size_t i = 0; i < sizeof WORDS / sizeof *WORDS; i++) {
        size_t length = strlen(WORDS[i]);
        other = other && !(strncmp(shown, WORDS[i], length) == 0 && (shown[length] == ' ' || shown[length] == '\0'));
    }
    return other;
}

/* Why the calls end at a line, and the line. */
static void tell_line(struct bytes calls, size_t line, const char *path, uint16_t answer)
{
    char shown[SHOWN_LINE];
    bool wrong_form = answer == SPINEBRIAR_WRONG_FORM;
    show_line(calls, line, wrong_form, shown);
    const char *text = spinebriar_answer_text(answer);
    complain("%s: refused at line %zu: %u, %s%s", path, line, answer, text == NULL ? "?" : text,
             wrong_form && is_other_word(shown) ? " (file takes term, step, names, text, point and return alone)" : "");
    complain("%s: line %zu: %s", path, line, shown);
}

int file_bytes(struct bytes calls, const char *path, FILE *out)
{
    if (calls.length > SPINEBRIAR_MOST_BYTES) {
        complain("%s: more than %d bytes of calls", path, SPINEBRIAR_MOST_BYTES);
        return NO;
    }
    /* A bundle has at most 62,504 bytes. */
    uint8_t *bundle = malloc(SPINEBRIAR_MOST_BYTES);
    if (bundle == NULL) {
        complain("%s", strerror(ENOMEM));
        return UNREADABLE;
    }
    size_t value = 0;
    uint16_t answer = spinebriar_file(calls.at, calls.length, bundle, SPINEBRIAR_MOST_BYTES, &value);
    if (answer == SPINEBRIAR_ACCEPTED) {
        fwrite(bundle, 1, value, out);
    } else {
        tell_line(calls, value, path, answer);
    }
    free(bundle);
    return answer == SPINEBRIAR_ACCEPTED ? YES : NO;
}

int file_command(const struct options *options, FILE *out)
{
    struct bytes calls;
    if (!read_bytes(options->file, SPINEBRIAR_MOST_BYTES, &calls)) {
        return UNREADABLE;
    }
    int status = file_bytes(calls, options->file, out);
    free(calls.at);
    return status;
}
