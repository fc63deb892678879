#include "terms.h"

#include <string.h>

static const char *const AXES[] = {
    "self", "child", "parent", "descendant", "ancestor", "descendant-or-self", "ancestor-or-self", "following-sibling",
    "preceding-sibling", "following", "preceding", "attribute"
};
enum { AXIS_COUNT = sizeof AXES / sizeof *AXES, NODE_TEST = 2, TARGET_TEST = 6, SELF = 0 };
static const char *const TESTS[] = {"", "*", "node()", "text()", "comment()", "processing-instruction()"};
enum { TEST_COUNT = sizeof TESTS / sizeof *TESTS };

/* What may stand somewhere without parentheses, the loosest first: a union or disjunction, a composition or
   conjunction, a filter or negation. An inclusion has its own. */
enum { LOOSE, TIGHT, TIGHTEST };

static struct row row_of(const struct shown *shown, uint16_t row)
{
    return shown->bundle->rows[row];
}

static bool is_path(struct row row)
{
    return row.kind <= FILTER_ROW;
}

/* The row has two operands. */
static bool has_two(struct row row)
{
    return (row.kind >= UNION_ROW && row.kind <= FILTER_ROW) || row.kind >= AND_ROW;
}

/* `not (p in V)`, which is shown as `some p`. */
static bool is_some(const struct shown *shown, struct row row)
{
    if (row.kind != NOT_ROW || row_of(shown, row.a).kind != INCLUSION_ROW) {
        return false;
    }
    return row_of(shown, row_of(shown, row.a).b).kind == VOID_ROW;
}

static bool is_self_node(struct row row)
{
    return row.kind == STEP_ROW && row.a == SELF && row.b == NODE_TEST;
}

/* The parts of a row with two operands: the sign between them, how loose the row is, and what each side takes. */
struct sign {
    const char *between, *after;
    int level, left, right;
};

static struct sign sign_of(uint16_t kind)
{
    switch (kind) {
    case UNION_ROW: return (struct sign){"|", "", LOOSE, LOOSE, TIGHT};
    case COMPOSITION_ROW: return (struct sign){"/", "", TIGHT, TIGHT, TIGHTEST};
    case FILTER_ROW: return (struct sign){"[", "]", TIGHTEST, TIGHTEST, LOOSE};
    case AND_ROW: return (struct sign){" and ", "", TIGHT, TIGHT, TIGHTEST};
    case OR_ROW: return (struct sign){" or ", "", LOOSE, LOOSE, TIGHT};
    default: return (struct sign){" in ", "", LOOSE - 1, TIGHT, TIGHT};
    }
}

static size_t name_width(const struct shown *shown, uint16_t number)
{
    const struct name *name = name_of(shown->names, number);
    return name == NULL ? 6 : name->length;
}

static size_t sum(size_t x, size_t y)
{
    return x + y < MOST_WIDTH + 1 ? x + y : MOST_WIDTH + 1;
}

/* How wide an operand is shown; by its number, `{1023}` at most, where its own text is too wide. */
static size_t operand_width(const struct shown *shown, uint16_t row)
{
    return shown->width[row] > MOST_WIDTH ? strlen("{1023}") : shown->width[row];
}

static size_t axis_step_width(const struct shown *shown, struct row row)
{
    if (is_self_node(row)) {
        return 1;
    }
    size_t axis = strlen("::") + (row.a < AXIS_COUNT ? strlen(AXES[row.a]) : 1);
    if (row.b == 0) {
        return sum(axis, name_width(shown, row.c));
    }
    return row.b == TARGET_TEST ? sum(axis + strlen("processing-instruction('')"), name_width(shown, row.c))
                                : axis + (row.b < TEST_COUNT ? strlen(TESTS[row.b]) : 1);
}

/* How wide the row's text is at most; one more than MOST_WIDTH where that is too much. */
static size_t width_of(const struct shown *shown, struct row row)
{
    switch (row.kind) {
    case VOID_ROW: case ROOT_ROW: return 1;
    case TRUE_ROW: case FALSE_ROW: return strlen("false");
    case STEP_ROW: return axis_step_width(shown, row);
    case NOT_ROW:
        return sum(operand_width(shown, is_some(shown, row) ? row_of(shown, row.a).a : row.a), strlen("some ()"));
    default: {
        struct sign sign = sign_of(row.kind);
        size_t signs = strlen("()") + strlen(sign.between) + strlen(sign.after);
        return sum(sum(operand_width(shown, row.a), operand_width(shown, row.b)), signs);
    }
    }
}

void show_rows(struct shown *shown, const struct bundle *bundle, const struct names *names, FILE *out)
{
    *shown = (struct shown){.bundle = bundle, .names = names, .out = out};
    for (size_t i = 0; i < bundle->row_count; i++) {
        shown->width[i] = width_of(shown, bundle->rows[i]);
    }
}

static void put_name(struct shown *shown, uint16_t number)
{
    const struct name *name = name_of(shown->names, number);
    if (name == NULL) {
        fprintf(shown->out, "#%u", number);
    } else {
        fwrite(name->text, 1, name->length, shown->out);
    }
}

static void put_axis_step(struct shown *shown, struct row row)
{
    if (is_self_node(row)) {
        fputc('.', shown->out);
        return;
    }
    fprintf(shown->out, "%s::", row.a < AXIS_COUNT ? AXES[row.a] : "?");
    if (row.b == 0) {
        put_name(shown, row.c);
    } else if (row.b == TARGET_TEST) {
        fputs("processing-instruction('", shown->out);
        put_name(shown, row.c);
        fputs("')", shown->out);
    } else {
        fputs(row.b < TEST_COUNT ? TESTS[row.b] : "?", shown->out);
    }
}

static void put_row(struct shown *shown, struct row row, int place);

/* The row where only what binds as `place` asks can stand; a long one by its number. */
static void put_operand(struct shown *shown, uint16_t number, int place)
{
    if (shown->width[number] > MOST_WIDTH) {
        fprintf(shown->out, "{%u}", number);
    } else {
        put_row(shown, row_of(shown, number), place);
    }
}

static void put_two(struct shown *shown, struct row row, int place)
{
    struct sign sign = sign_of(row.kind);
    bool parentheses = sign.level < place || row.kind == INCLUSION_ROW;
    fputs(parentheses ? "(" : "", shown->out);
    put_operand(shown, row.a, sign.left);
    fputs(sign.between, shown->out);
    put_operand(shown, row.b, sign.right);
    fputs(sign.after, shown->out);
    fputs(parentheses ? ")" : "", shown->out);
}

static void put_row(struct shown *shown, struct row row, int place)
{
    switch (row.kind) {
    case VOID_ROW: fputc('V', shown->out); break;
    case ROOT_ROW: fputc('R', shown->out); break;
    case STEP_ROW: put_axis_step(shown, row); break;
    case TRUE_ROW: fputs("true", shown->out); break;
    case FALSE_ROW: fputs("false", shown->out); break;
    case NOT_ROW: {
        bool some = is_some(shown, row);
        fputs(some ? "some " : "not ", shown->out);
        put_operand(shown, some ? row_of(shown, row.a).a : row.a, some ? TIGHT : TIGHTEST);
        break;
    }
    default: put_two(shown, row, place);
    }
}

/* A row nests at most 32 deep, and each is looked at once. */
void define_row(struct shown *shown, uint16_t number)
{
    if (shown->looked_at[number]) {
        return;
    }
    shown->looked_at[number] = true;
    struct row row = row_of(shown, number);
    if (is_some(shown, row)) {
        define_row(shown, row_of(shown, row.a).a);
    } else if (row.kind == NOT_ROW) {
        define_row(shown, row.a);
    } else if (has_two(row)) {
        define_row(shown, row.a);
        define_row(shown, row.b);
    }
    if (shown->width[number] > MOST_WIDTH) {
        fprintf(shown->out, "{%u} = ", number);
        put_row(shown, row, LOOSE);
        fputc('\n', shown->out);
    }
}

void show_claim(struct shown *shown, uint16_t left, uint16_t right)
{
    put_operand(shown, left, LOOSE);
    fputs(is_path(row_of(shown, left)) ? " <= " : " => ", shown->out);
    put_operand(shown, right, LOOSE);
}

void define_step(struct shown *shown, const struct step *step)
{
    define_row(shown, step->left);
    define_row(shown, step->right);
}
