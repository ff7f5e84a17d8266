#include "listing.h"

#include <inttypes.h>
#include <stdio.h>
#include <string.h>

/* The least widths: of an op's position, of its text, and of a record's text with names beside it. */
enum { LEAST_POSITION = 3, LEAST_TEXT = 34, LEAST_NAMED = 31 };

static uint64_t movi_constant(const uint8_t *op)
{
    uint64_t value = 0;
    unsigned k;

    for (k = 9; k > 1; k -= 1) {
        value = 256 * value + op[k];
    }
    return value;
}

/* Adds a field to a text: the mark is v or $. */
static void add_field(char text[LISTING_SIZE], int first, char mark, uint64_t value)
{
    size_t length = strlen(text);

    snprintf(text + length, LISTING_SIZE - length, "%s%c%" PRIu64, first ? " " : ", ", mark, value);
}

void list_name(uint8_t kind, char text[LISTING_SIZE])
{
    const char *width = kind < NGULO_KIND_MOVI_I32 ? "" : kind < NGULO_KIND_WIDE ? "_i32" : "_i64";

    snprintf(text, LISTING_SIZE, "%s%s", shape_of(kind)->name, width);
}

void list_record(const uint8_t *record, char text[LISTING_SIZE])
{
    const struct shape *shape = shape_of(record[0]);
    unsigned operands = shape->outputs + shape->inputs;
    unsigned k;

    list_name(record[0], text);
    for (k = 1; k <= operands; k += 1) {
        add_field(text, k == 1, 'v', record[k]);
    }
    if (is_movi(record[0])) {
        add_field(text, 0, '$', movi_constant(record));
        return;
    }
    for (; k <= operands + shape->after; k += 1) {
        add_field(text, k == 1, '$', record[k]);
    }
}

/* The width of the positions of so many ops. */
static int position_width(unsigned ops)
{
    int digits = snprintf(NULL, 0, "%u", ops == 0 ? 0 : ops - 1);

    return digits < LEAST_POSITION ? LEAST_POSITION : digits;
}

/* The width of the texts of a block's ops, at least this. */
static int text_width(const struct records *block, int least)
{
    char text[LISTING_SIZE];
    int width = least;
    unsigned i;

    for (i = 0; i < block->ops; i += 1) {
        list_record(op_at(block, i), text);
        width = (int)strlen(text) > width ? (int)strlen(text) : width;
    }
    return width;
}

struct columns measure_ops(const struct records *block)
{
    struct columns columns;

    columns.position = position_width(block->ops);
    columns.text = text_width(block, LEAST_TEXT);
    return columns;
}

void print_op(const struct columns *columns, unsigned position, const uint8_t *op)
{
    char text[LISTING_SIZE];

    list_record(op, text);
    printf("%*u  %-*s  ", columns->position, position, columns->text, text);
}

unsigned count_names(const char *names)
{
    unsigned count = names != NULL && *names != '\0';

    for (; names != NULL && *names != '\0'; names += 1) {
        count += *names == ',';
    }
    return count;
}

size_t find_name(const char *names, unsigned variable, const char **name)
{
    if (names == NULL) {
        return 0;
    }
    for (; variable > 0 && *names != '\0'; variable -= 1) {
        names += strcspn(names, ",");
        names += *names == ',';
    }
    *name = names;
    return strcspn(names, ",");
}

void print_variable(unsigned variable, const char *names)
{
    const char *name = "";
    size_t length = find_name(names, variable, &name);

    printf("v%u%s%.*s", variable, length == 0 ? "" : " ", (int)length, name);
}

/* So many blanks after a text: variables that have names, each once. */
static void print_beside(int blanks, const uint8_t *variables, unsigned count, const char *names)
{
    const char *name;
    int beside = 0;
    unsigned k;

    for (k = 0; k < count; k += 1) {
        if (find_name(names, variables[k], &name) > 0 && memchr(variables, variables[k], k) == NULL) {
            printf("%*s%s", beside ? 0 : blanks, "", beside ? ", " : "# ");
            print_variable(variables[k], names);
            beside = 1;
        }
    }
    putchar('\n');
}

void print_listing(const struct records *block, const char *names)
{
    int width = text_width(block, LEAST_NAMED);
    char text[LISTING_SIZE];
    unsigned i;

    for (i = 0; i < block->variables + block->ops; i += 1) {
        const uint8_t *record = block->at[i];
        const struct shape *shape = shape_of(record[0]);
        uint8_t declared = (uint8_t)i;
        int blanks;

        list_record(record, text);
        fputs(text, stdout);
        blanks = width + 1 - (int)strlen(text);
        if (record[0] == NGULO_KIND_DECL) {
            print_beside(blanks, &declared, 1, names);
        } else {
            print_beside(blanks, record + 1, shape->outputs + shape->inputs, names);
        }
    }
}

/* Is there a whole record at a place of any bytes? */
static int is_whole(const uint8_t *block, size_t length, size_t at)
{
    return at < length && shape_of(block[at]) != NULL && record_length(block[at]) <= length - at;
}

void print_places(const uint8_t *block, size_t length)
{
    char text[LISTING_SIZE];
    unsigned ops = 0;
    int width;
    size_t at;

    for (at = 0; is_whole(block, length, at); at += record_length(block[at])) {
        ops += block[at] != NGULO_KIND_DECL;
    }
    width = position_width(ops);
    ops = 0;
    for (at = 0; is_whole(block, length, at); at += record_length(block[at])) {
        list_record(block + at, text);
        if (block[at] == NGULO_KIND_DECL) {
            printf("%5lu  %*s  %s\n", (unsigned long)at, width, "", text);
        } else {
            printf("%5lu  %*u  %s\n", (unsigned long)at, width, ops, text);
            ops += 1;
        }
    }
}
