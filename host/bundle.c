#include "bundle.h"

#include <stdio.h>
#include <string.h>

static const char STEP_NAMES[] = "rule left right first second\n";

size_t lines_in(const uint8_t *bytes, size_t length)
{
    size_t lines = 0;
    for (size_t i = 0; i < length; i++) {
        lines += bytes[i] == '\n' || i + 1 == length;
    }
    return lines;
}

size_t line_start(const uint8_t *bytes, size_t length, size_t line)
{
    size_t at = 0;
    for (size_t n = 1; n < line && at < length; n++) {
        const uint8_t *newline = memchr(bytes + at, '\n', length - at);
        at = newline == NULL ? length : (size_t)(newline - bytes) + 1;
    }
    return at;
}

void show_line(struct bytes text, size_t line, bool wrong_form, char shown[SHOWN_LINE])
{
    enum { MOST = 80 };
    size_t start = line_start(text.at, text.length, line);
    size_t end = line_start(text.at, text.length, line + 1);
    if (start == end) {
        strcpy(shown, "missing");
        return;
    }
    bool whole = text.at[end - 1] == '\n';
    size_t length = end - start - whole, cut = length > MOST ? MOST : length;
    for (size_t i = 0; i < cut; i++) {
        uint8_t byte = text.at[start + i];
        shown[i] = byte >= 0x20 && byte < 0x7f ? (char)byte : '?';
    }
    bool returned = memchr(text.at + start, '\r', length) != NULL;
    const char *unseen = !whole ? " (its newline is missing)" : returned ? " (a carriage return)" : "";
    snprintf(shown + cut, SHOWN_LINE - cut, "%s%s", cut < length ? ".." : "", wrong_form ? unseen : "");
}

/* The `count` numbers of the line from `at` to `end`; false where it has others. */
static bool parse_numbers(const uint8_t *at, const uint8_t *end, size_t count, uint16_t *numbers)
{
    for (size_t i = 0; i < count; i++) {
        uint32_t number = 0;
        const uint8_t *digits = at;
        while (at < end && *at >= '0' && *at <= '9' && number <= UINT16_MAX) {
            number = 10 * number + (uint32_t)(*at++ - '0');
        }
        bool last = i + 1 == count;
        if (at == digits || number > UINT16_MAX || (last ? at != end : at == end || *at++ != ' ')) {
            return false;
        }
        numbers[i] = (uint16_t)number;
    }
    return true;
}

/* The operands of a row are earlier ones, so that no walk over them goes in a circle. */
static bool operands_before(struct row row, size_t count)
{
    switch (row.kind) {
    case VOID_ROW: case ROOT_ROW: case STEP_ROW: case TRUE_ROW: case FALSE_ROW: return true;
    case NOT_ROW: return row.a < count;
    default: return row.kind <= INCLUSION_ROW && row.a < count && row.b < count;
    }
}

static bool parse_row(const uint8_t *at, const uint8_t *end, struct bundle *bundle)
{
    uint16_t n[4];
    if (bundle->row_count == SPINEBRIAR_MOST_ROWS || !parse_numbers(at, end, 4, n)) {
        return false;
    }
    struct row row = {n[0], n[1], n[2], n[3]};
    if (!operands_before(row, bundle->row_count)) {
        return false;
    }
    bundle->rows[bundle->row_count++] = row;
    return true;
}

static bool parse_step(const uint8_t *at, const uint8_t *end, struct bundle *bundle)
{
    uint16_t n[5];
    if (bundle->step_count == SPINEBRIAR_MOST_STEPS || !parse_numbers(at, end, 5, n)) {
        return false;
    }
    struct step step = {n[0], n[1], n[2], n[3], n[4]};
    if (step.left >= bundle->row_count || step.right >= bundle->row_count) {
        return false;
    }
    bundle->steps[bundle->step_count++] = step;
    return true;
}

static bool is_step_names(const uint8_t *at, size_t length)
{
    return length >= sizeof STEP_NAMES - 1 && memcmp(at, STEP_NAMES, sizeof STEP_NAMES - 1) == 0;
}

void parse_bundle(const uint8_t *bytes, size_t length, struct bundle *bundle)
{
    bundle->row_count = 0;
    bundle->step_count = 0;
    bool in_steps = false, whole = true;
    size_t at = line_start(bytes, length, 2);
    while (whole && at < length) {
        size_t next = at + line_start(bytes + at, length - at, 2);
        const uint8_t *end = bytes + next - (bytes[next - 1] == '\n');
        if (!in_steps && is_step_names(bytes + at, length - at)) {
            in_steps = true;
        } else {
            whole = in_steps ? parse_step(bytes + at, end, bundle) : parse_row(bytes + at, end, bundle);
        }
        at = next;
    }
}

bool read_bundle(const char *path, struct bytes *file)
{
    return read_bytes(path, SPINEBRIAR_MOST_BYTES, file);
}
