#include "names.h"

#include <errno.h>
#include <fcntl.h>
#include <stdlib.h>
#include <string.h>
#include <sys/file.h>
#include <sys/stat.h>
#include <unistd.h>

static bool is_letter(char c)
{
    return (c >= 'a' && c <= 'z') || (c >= 'A' && c <= 'Z') || c == '_';
}

size_t name_length(const char *text, size_t length)
{
    if (length == 0 || !is_letter(text[0])) {
        return 0;
    }
    size_t end = 1;
    while (end < length && (is_letter(text[end]) || (text[end] >= '0' && text[end] <= '9') || text[end] == '-' ||
                            text[end] == '.')) {
        end++;
    }
    return end;
}

bool is_name(const char *text, size_t length)
{
    return length > 0 && name_length(text, length) == length;
}

static int compare_text(const struct name *x, const struct name *y)
{
    size_t least = x->length < y->length ? x->length : y->length;
    int order = memcmp(x->text, y->text, least);
    return order != 0 ? order : (x->length > y->length) - (x->length < y->length);
}

/* By text, and of equal ones by line. */
static int compare_names(const void *a, const void *b)
{
    const struct name *x = a, *y = b;
    int order = compare_text(x, y);
    return order != 0 ? order : (x->number > y->number) - (x->number < y->number);
}

/* Keeps the first of each run of equal names; the others lose their number. */
static void drop_repeated(struct names *names)
{
    size_t kept = 0;
    for (size_t i = 0; i < names->count; i++) {
        if (kept > 0 && compare_text(&names->by_text[kept - 1], &names->by_text[i]) == 0) {
            names->by_line[names->by_text[i].number - 1].number = 0;
        } else {
            names->by_text[kept++] = names->by_text[i];
        }
    }
    names->count = kept;
}

static size_t count_lines(struct bytes file)
{
    size_t lines = 0;
    for (size_t i = 0; i < file.length; i++) {
        lines += file.at[i] == '\n' || i + 1 == file.length;
    }
    return lines;
}

/* How many lines can have a number. */
static size_t numbered_lines(const struct names *names)
{
    return names->lines < SPINEBRIAR_MOST_NUMBER ? names->lines : SPINEBRIAR_MOST_NUMBER;
}

bool names_of(struct bytes file, struct names *names)
{
    *names = (struct names){.file = file, .stored = file.length, .lines = count_lines(file)};
    size_t numbered = numbered_lines(names);
    names->by_line = calloc(numbered + 1, sizeof *names->by_line);
    names->by_text = calloc(numbered + 1, sizeof *names->by_text);
    if (names->by_line == NULL || names->by_text == NULL) {
        return false;
    }
    const char *text = (const char *)file.at;
    size_t start = 0;
    for (size_t line = 1; line <= numbered; line++) {
        const char *newline = memchr(text + start, '\n', file.length - start);
        size_t end = newline == NULL ? file.length : (size_t)(newline - text);
        struct name *name = &names->by_line[line - 1];
        *name = (struct name){text + start, end - start, 0};
        if (is_name(name->text, name->length)) {
            name->number = (uint16_t)line;
            names->by_text[names->count++] = *name;
        }
        start = end + 1;
    }
    qsort(names->by_text, names->count, sizeof *names->by_text, compare_names);
    drop_repeated(names);
    return true;
}

/* The bytes of the character at the start of a text in UTF-8; 0 where there is none, or a control character but a tab
   or a newline. */
static size_t character_length(const uint8_t *at, size_t left)
{
    /* first byte from, to; second byte from, to; length */
    static const uint8_t FORMS[][5] = {
        {' ', '~', 0, 0, 1}, {'\t', '\n', 0, 0, 1}, {0xc2, 0xdf, 0x80, 0xbf, 2}, {0xe0, 0xe0, 0xa0, 0xbf, 3},
        {0xe1, 0xec, 0x80, 0xbf, 3}, {0xed, 0xed, 0x80, 0x9f, 3}, {0xee, 0xef, 0x80, 0xbf, 3},
        {0xf0, 0xf0, 0x90, 0xbf, 4}, {0xf1, 0xf3, 0x80, 0xbf, 4}, {0xf4, 0xf4, 0x80, 0x8f, 4},
    };
    const uint8_t *form = NULL;
    for (size_t i = 0; i < sizeof FORMS / sizeof *FORMS && form == NULL; i++) {
        form = at[0] >= FORMS[i][0] && at[0] <= FORMS[i][1] ? FORMS[i] : NULL;
    }
    if (form == NULL || form[4] > left || (form[4] > 1 && (at[1] < form[2] || at[1] > form[3]))) {
        return 0;
    }
    for (size_t i = 2; i < form[4]; i++) {
        if ((at[i] & 0xc0) != 0x80) {
            return 0;
        }
    }
    return form[4];
}

/* What no list of names has, and its line, from 1; null where the file has nothing of it. Each of these would give a
   name that stands in the list another number, or none. */
static const char *flaw_of(struct bytes file, size_t *line)
{
    *line = 1;
    if (file.length >= 3 && memcmp(file.at, "\xef\xbb\xbf", 3) == 0) {
        return "begins with a byte order mark";
    }
    for (size_t i = 0; i < file.length;) {
        char c = (char)file.at[i];
        size_t length = character_length(file.at + i, file.length - i);
        bool ends = i + 1 == file.length || file.at[i + 1] == '\n';
        if (c == '\r') {
            return "has a carriage return; lines end in a newline alone";
        }
        if (length == 0) {
            return "has bytes that are no text";
        }
        if (ends && (c == ' ' || c == '\t')) {
            return "ends in a blank";
        }
        *line += c == '\n';
        i += length;
    }
    return NULL;
}

/* False after a message. */
static bool is_list(const char *path, struct bytes file)
{
    size_t line;
    if (file.length > MOST_NAMES_BYTES) {
        complain("%s: a list of names has at most %d bytes", path, MOST_NAMES_BYTES);
        return false;
    }
    const char *flaw = flaw_of(file, &line);
    if (flaw != NULL) {
        complain("%s: line %zu %s", path, line, flaw);
    }
    return flaw == NULL;
}

bool read_names(const char *path, struct names *names)
{
    struct bytes file;
    *names = (struct names){.count = 0};
    if (!read_bytes(path, MOST_NAMES_BYTES, &file)) {
        return false;
    }
    if (!is_list(path, file)) {
        free(file.at);
        return false;
    }
    if (!names_of(file, names)) {
        complain("%s: %s", path, strerror(ENOMEM));
        free_names(names);
        return false;
    }
    return true;
}

void free_names(struct names *names)
{
    free(names->file.at);
    free(names->by_line);
    free(names->by_text);
    *names = (struct names){.count = 0};
}

uint16_t number_of(const struct names *names, const char *text, size_t length)
{
    size_t low = 0, high = names->count;
    struct name sought = {text, length, 0};
    while (low < high) {
        size_t middle = low + (high - low) / 2;
        int order = compare_text(&sought, &names->by_text[middle]);
        if (order == 0) {
            return names->by_text[middle].number;
        }
        if (order < 0) {
            high = middle;
        } else {
            low = middle + 1;
        }
    }
    return 0;
}

const struct name *name_of(const struct names *names, uint16_t number)
{
    if (number == 0 || number > numbered_lines(names) || names->by_line[number - 1].number == 0) {
        return NULL;
    }
    return &names->by_line[number - 1];
}

bool extend_names(struct names *names, const struct name *more, size_t count)
{
    size_t length = names->file.length + 1;
    for (size_t i = 0; i < count; i++) {
        length += more[i].length + 1;
    }
    struct bytes longer = {malloc(length), names->file.length};
    if (longer.at == NULL) {
        return false;
    }
    memcpy(longer.at, names->file.at, longer.length);
    if (longer.length > 0 && longer.at[longer.length - 1] != '\n') {
        longer.at[longer.length++] = '\n';
    }
    for (size_t i = 0; i < count; i++) {
        memcpy(longer.at + longer.length, more[i].text, more[i].length);
        longer.length += more[i].length;
        longer.at[longer.length++] = '\n';
    }
    size_t stored = names->stored;
    free_names(names);
    bool done = names_of(longer, names);
    names->stored = stored;
    return done;
}

static bool write_all(int file, const uint8_t *bytes, size_t length)
{
    while (length > 0) {
        ssize_t written = write(file, bytes, length);
        if (written < 0) {
            return false;
        }
        bytes += written;
        length -= (size_t)written;
    }
    return true;
}

/* Whether names can be added to the file at all. False after a message. */
static bool can_grow(const char *path, const struct names *names)
{
    struct stat about;
    bool file = stat(path, &about) == 0 && S_ISREG(about.st_mode);
    if (!file) {
        complain("%s: no file to which names can be added", path);
    } else if (names->file.length > MOST_NAMES_BYTES) {
        complain("%s: a list of names has at most %d bytes", path, MOST_NAMES_BYTES);
    }
    return file && names->file.length <= MOST_NAMES_BYTES;
}

/* Whether the file, which is locked, has the bytes that were read from it. False after a message. */
static bool is_unchanged(const char *path, const struct names *names)
{
    struct bytes now;
    if (!read_bytes(path, MOST_NAMES_BYTES, &now)) {
        return false;
    }
    bool same = now.length == names->stored && memcmp(now.at, names->file.at, now.length) == 0;
    free(now.at);
    if (!same) {
        complain("%s: changed meanwhile, and nothing is added to it", path);
    }
    return same;
}

/* Writes the new bytes at the end of the file, or leaves it as it was. False after a message. */
static bool append(int file, const char *path, const struct names *names)
{
    const uint8_t *more = names->file.at + names->stored;
    if (write_all(file, more, names->file.length - names->stored) && fsync(file) == 0) {
        return true;
    }
    complain("%s: %s", path, strerror(errno));
    if (ftruncate(file, (off_t)names->stored) != 0) {
        complain("%s: is cut short or has lines too many: %s", path, strerror(errno));
    }
    return false;
}

bool store_names(const char *path, const struct names *names)
{
    if (!can_grow(path, names)) {
        return false;
    }
    int file = open(path, O_WRONLY | O_APPEND);
    bool locked = file >= 0 && flock(file, LOCK_EX) == 0;
    if (!locked) {
        complain("%s: %s", path, strerror(errno));
    }
    bool done = locked && is_unchanged(path, names) && append(file, path, names);
    if (file >= 0 && close(file) != 0 && done) {
        complain("%s: %s", path, strerror(errno));
        done = false;
    }
    return done;
}
