/* check and explain: what a bundle says, or why it is refused. */
#include <errno.h>
#include <stdlib.h>
#include <string.h>

#include "bundle.h"
#include "commands.h"
#include "rules.h"
#include "spinebriar.h"
#include "terms.h"

/* A bundle and how its rows are shown: too much for the stack of some hosts. */
struct sight {
    struct bundle bundle;
    struct shown shown;
};

static struct sight *sight_of(const uint8_t *bytes, size_t length, const struct names *names, FILE *out)
{
    struct sight *sight = malloc(sizeof *sight);
    if (sight == NULL) {
        complain("%s", strerror(ENOMEM));
        return NULL;
    }
    parse_bundle(bytes, length, &sight->bundle);
    show_rows(&sight->shown, &sight->bundle, names, out);
    return sight;
}

static void print_step(struct sight *sight, size_t number, FILE *out)
{
    const struct step *step = &sight->bundle.steps[number - 1];
    fprintf(out, "step %zu: ", number);
    show_claim(&sight->shown, step->left, step->right);
}

/* The claim of a step that its rule doesn't yield, which is the last one parsed, its premises' claims and the rule. */
static void print_not_yielded(struct sight *sight, FILE *out)
{
    size_t count = sight->bundle.step_count;
    const struct step *step = &sight->bundle.steps[count - 1];
    uint16_t premises[2] = {step->first, step->second};
    define_step(&sight->shown, step);
    for (size_t i = 0; i < 2; i++) {
        if (premises[i] > 0 && premises[i] < count) {
            define_step(&sight->shown, &sight->bundle.steps[premises[i] - 1]);
        }
    }
    print_step(sight, count, out);
    fputc('\n', out);
    for (size_t i = 0; i < 2; i++) {
        if (premises[i] > 0 && premises[i] < count) {
            fputs("from ", out);
            print_step(sight, premises[i], out);
            fputc('\n', out);
        }
    }
    const char *text = rule_text(step->rule);
    fprintf(out, "rule %u: %s\n", step->rule, text == NULL ? "none" : text);
}

static int print_refusal(struct bytes bundle, uint16_t answer, size_t line, const struct names *names, FILE *out)
{
    char shown[SHOWN_LINE];
    const char *text = spinebriar_answer_text(answer);
    show_line(bundle, line, answer == SPINEBRIAR_WRONG_FORM, shown);
    fprintf(out, "refused at line %zu: %u, %s\n", line, answer, text == NULL ? "?" : text);
    fprintf(out, "line %zu: %s\n", line, shown);
    if (answer == SPINEBRIAR_NOT_YIELDED) {
        struct sight *sight = sight_of(bundle.at, line_start(bundle.at, bundle.length, line + 1), names, out);
        if (sight == NULL) {
            return UNREADABLE;
        }
        if (sight->bundle.step_count > 0) {
            print_not_yielded(sight, out);
        }
        free(sight);
    }
    return NO;
}

/* YES for an accepted bundle; else it is said why not. */
static int judge(struct bytes bundle, const struct names *names, FILE *out)
{
    if (bundle.length > SPINEBRIAR_MOST_BYTES) {
        fprintf(out, "refused: more than %d bytes, and no bundle is so long\n", SPINEBRIAR_MOST_BYTES);
        return NO;
    }
    size_t line = 0;
    uint16_t answer = spinebriar_read_line(bundle.at, bundle.length, &line);
    return answer == SPINEBRIAR_ACCEPTED ? YES : print_refusal(bundle, answer, line, names, out);
}

int print_accepted(struct bytes bundle, const struct names *names, size_t number, FILE *out)
{
    struct sight *sight = sight_of(bundle.at, bundle.length, names, out);
    if (sight == NULL) {
        return UNREADABLE;
    }
    size_t count = sight->bundle.step_count;
    number = number == LAST_STEP ? count : number;
    fprintf(out, "accepted: rows %zu, steps %zu\n", sight->bundle.row_count, count);
    if (number > 0 && number <= count) {
        define_step(&sight->shown, &sight->bundle.steps[number - 1]);
        print_step(sight, number, out);
        fputc('\n', out);
    }
    free(sight);
    return YES;
}

int check_bytes(struct bytes bundle, const struct names *names, FILE *out)
{
    int status = judge(bundle, names, out);
    return status == YES ? print_accepted(bundle, names, LAST_STEP, out) : status;
}

static void print_explained(struct sight *sight, size_t number, FILE *out)
{
    const struct step *step = &sight->bundle.steps[number - 1];
    define_step(&sight->shown, step);
    print_step(sight, number, out);
    fprintf(out, ", by rule %u", step->rule);
    if (step->first > 0) {
        fprintf(out, " from %u", step->first);
    }
    if (step->second > 0) {
        fprintf(out, ", %u", step->second);
    }
    fputc('\n', out);
}

int explain_bytes(struct bytes bundle, const struct names *names, FILE *out)
{
    int status = judge(bundle, names, out);
    struct sight *sight = status == YES ? sight_of(bundle.at, bundle.length, names, out) : NULL;
    if (sight == NULL) {
        return status == YES ? UNREADABLE : status;
    }
    for (size_t number = 1; number <= sight->bundle.step_count; number++) {
        print_explained(sight, number, out);
    }
    free(sight);
    return YES;
}

typedef int bytes_command(struct bytes bundle, const struct names *names, const struct options *options, FILE *out);

static int on_file(const struct options *options, bytes_command *command, FILE *out)
{
    struct names names = {.count = 0};
    struct bytes bundle = {NULL, 0};
    int status = UNREADABLE;
    if ((options->names == NULL || read_names(options->names, &names)) && read_bundle(options->file, &bundle)) {
        status = command(bundle, &names, options, out);
    }
    free(bundle.at);
    free_names(&names);
    return status;
}

static int check_or_claim(struct bytes bundle, const struct names *names, const struct options *options, FILE *out)
{
    return options->old_selector == NULL
               ? check_bytes(bundle, names, out)
               : claim_bytes(bundle, names, options->old_selector, options->new_selector, out);
}

int check_command(const struct options *options, FILE *out)
{
    return on_file(options, check_or_claim, out);
}

static int explain_it(struct bytes bundle, const struct names *names, const struct options *options, FILE *out)
{
    (void)options;
    return explain_bytes(bundle, names, out);
}

int explain_command(const struct options *options, FILE *out)
{
    return on_file(options, explain_it, out);
}
