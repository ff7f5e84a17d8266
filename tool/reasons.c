#include "reasons.h"

#include "listing.h"

#include <string.h>

/* What the records before a place come to; they break no rule. */
struct seen {
    const uint8_t *block;
    const uint8_t *declared[NGULO_MAX_VARIABLES];
    unsigned variables;
    unsigned ops;
    size_t last_op;
    size_t written[NGULO_MAX_VARIABLES]; /* where a variable was written last; 0, where no such op is, for nowhere */
    size_t lost[NGULO_MAX_VARIABLES];    /* where the extended basic block of that write ended; 0 if it did not yet */
};

static void see_op(struct seen *seen, const uint8_t *op, size_t place)
{
    unsigned v;

    seen->ops += 1;
    seen->last_op = place;
    if (shape_of(op[0])->outputs == 1) {
        seen->written[op[1]] = place;
        seen->lost[op[1]] = 0;
    }
    if (!is_edge(op[0])) {
        return;
    }
    for (v = 0; v < seen->variables; v += 1) {
        if (seen->written[v] != 0 && seen->lost[v] == 0) {
            seen->lost[v] = place;
        }
    }
}

static void look_back(const uint8_t *block, size_t place, struct seen *seen)
{
    size_t at;

    memset(seen, 0, sizeof *seen);
    seen->block = block;
    for (at = 0; at < place; at += record_length(block[at])) {
        if (block[at] == NGULO_KIND_DECL) {
            seen->declared[seen->variables] = block + at;
            seen->variables += 1;
        } else {
            see_op(seen, block + at, at);
        }
    }
}

static void print_bad_declaration(FILE *stream, const struct seen *seen, const uint8_t *record)
{
    if (seen->ops > 0) {
        fputs(": it stands after an op", stream);
    } else if (record[1] > NGULO_CLASS_TEMPORARY) {
        fprintf(stream, ": there is no class %u", (unsigned)record[1]);
    } else if (record[2] > NGULO_TYPE_I64) {
        fprintf(stream, ": there is no type %u", (unsigned)record[2]);
    } else if (seen->variables == NGULO_MAX_VARIABLES) {
        fprintf(stream, ": %d variables stand before it", NGULO_MAX_VARIABLES);
    } else {
        fputs(": a global after a temporary", stream);
    }
}

static void print_bad_flags(FILE *stream, const uint8_t *record)
{
    unsigned flags = record[3];

    fprintf(stream, ": flags 0x%02x: ", flags);
    if (flags > NGULO_FLAG_SIZE + NGULO_FLAG_SIGNED + NGULO_FLAG_BIG_ENDIAN + NGULO_FLAG_ALIGNED) {
        fputs("bits 5 to 7 are to be zero", stream);
    } else if (operand_type(record[0], 1) == NGULO_TYPE_I32 && (flags & NGULO_FLAG_SIZE) == NGULO_SIZE_8) {
        fputs("8 bytes are more than the op's 32 bits", stream);
    } else {
        fputs("a store does not sign-extend", stream);
    }
}

static void print_bad_swap_flags(FILE *stream, const uint8_t *record)
{
    unsigned flags = record[3];

    fprintf(stream, ": flags 0x%02x: ", flags);
    if (record[0] == NGULO_KIND_BSWAP32_I32 || record[0] == NGULO_KIND_BSWAP64_I64) {
        fputs("they are to be zero where the whole width is swapped", stream);
    } else if (flags > NGULO_BSWAP_IZ + NGULO_BSWAP_OZ + NGULO_BSWAP_OS) {
        fputs("the bits from 3 on are to be zero", stream);
    } else {
        fprintf(stream, "exactly one of OZ (2) and OS (4) is to be set, and %s",
                flags & NGULO_BSWAP_OZ ? "both are" : "neither is");
    }
}

/* Of deposit, extract and sextract, whose last bytes are pos and len. */
static void print_bad_bits(FILE *stream, const uint8_t *record)
{
    const uint8_t *pos = record + record_length(record[0]) - 2;

    fprintf(stream, ": pos %u, len %u: ", (unsigned)pos[0], (unsigned)pos[1]);
    if (pos[1] == 0) {
        fputs("a field has at least one bit", stream);
    } else {
        fprintf(stream, "the field's highest bit would be %u, but the op's is %u", (unsigned)(pos[0] + pos[1] - 1),
                op_bits(record[0]) - 1);
    }
}

static void print_bad_field(FILE *stream, const uint8_t *record)
{
    unsigned last = record[record_length(record[0]) - 1];

    switch (narrow_kind(record[0])) {
    case NGULO_KIND_MOVI_I32:
        fputs(": the constant has more than 32 bits", stream);
        break;
    case NGULO_KIND_SETCOND_I32:
    case NGULO_KIND_MOVCOND_I32:
        fprintf(stream, ": there is no condition %u", last);
        break;
    case NGULO_KIND_QEMU_LD_I32:
    case NGULO_KIND_QEMU_ST_I32:
        print_bad_flags(stream, record);
        break;
    case NGULO_KIND_DEPOSIT_I32:
    case NGULO_KIND_EXTRACT_I32:
    case NGULO_KIND_SEXTRACT_I32:
        print_bad_bits(stream, record);
        break;
    case NGULO_KIND_EXTRACT2_I32:
        fprintf(stream, ": pos %u: it is to be at most %u, the op's width", last, op_bits(record[0]));
        break;
    case NGULO_KIND_BSWAP16_I32:
    case NGULO_KIND_BSWAP32_I32:
    case NGULO_KIND_BSWAP64_I64 - NGULO_KIND_WIDE:
        print_bad_swap_flags(stream, record);
        break;
    default:
        if (is_brcond(record[0]) && record[3] > NGULO_COND_GTU) {
            fprintf(stream, ": there is no condition %u", (unsigned)record[3]);
        } else {
            fprintf(stream, ": there is no label %u", last);
        }
        break;
    }
}

/* Does this refusal, one of operands, speak of the operand at a place of the record? */
static int speaks_of(unsigned number, const struct seen *seen, const uint8_t *record, unsigned k)
{
    unsigned v = record[k];

    switch (number) {
    case NGULO_REFUSAL_UNDECLARED:
        return v >= seen->variables;
    case NGULO_REFUSAL_WRONG_WIDTH:
        return seen->declared[v][2] != operand_type(record[0], k);
    case NGULO_REFUSAL_UNWRITTEN:
        return k > shape_of(record[0])->outputs && seen->declared[v][1] == NGULO_CLASS_TEMPORARY &&
               (seen->written[v] == 0 || seen->lost[v] != 0);
    default:
        return 0;
    }
}

/* Where a temporary was written, and where it was lost. */
static void print_lost(FILE *stream, const struct seen *seen, unsigned v)
{
    uint8_t end = seen->block[seen->lost[v]];
    char name[LISTING_SIZE];

    list_name(end, name);
    fprintf(stream, "v%u was written at %lu, but the extended basic block of that write ended %s the %s at %lu", v,
            (unsigned long)seen->written[v], end == NGULO_KIND_SET_LABEL ? "before" : "with", name,
            (unsigned long)seen->lost[v]);
}

static void print_operand(FILE *stream, unsigned number, const struct seen *seen, unsigned v)
{
    if (number == NGULO_REFUSAL_UNDECLARED) {
        fprintf(stream, "v%u is not declared", v);
    } else if (number == NGULO_REFUSAL_WRONG_WIDTH) {
        fprintf(stream, "v%u has %s", v, seen->declared[v][2] == NGULO_TYPE_I32 ? "32 bits, not 64" : "64 bits, not 32");
    } else if (seen->written[v] == 0) {
        fprintf(stream, "v%u is not written yet", v);
    } else {
        print_lost(stream, seen, v);
    }
}

/* The operands of which the refusal speaks, each variable once. */
static void print_operands(FILE *stream, unsigned number, const struct seen *seen, const uint8_t *record)
{
    const struct shape *shape = shape_of(record[0]);
    const char *between = ": ";
    unsigned k;
    unsigned before;

    for (k = 1; k <= shape->outputs + shape->inputs; k += 1) {
        before = 1;
        while (before < k && !(record[before] == record[k] && speaks_of(number, seen, record, before))) {
            before += 1;
        }
        if (before == k && speaks_of(number, seen, record, k)) {
            fputs(between, stream);
            print_operand(stream, number, seen, record[k]);
            between = "; ";
        }
    }
}

/* The label of a br or brcond that no set_label follows; the block ends clean. */
static void print_unset_label(FILE *stream, const struct bytes *block)
{
    int set[NGULO_MAX_LABELS] = {0};
    size_t at;

    for (at = 0; at < block->length; at += record_length(block->data[at])) {
        if (block->data[at] == NGULO_KIND_SET_LABEL) {
            set[block->data[at + 1]] = 1;
        }
    }
    for (at = 0; at < block->length; at += record_length(block->data[at])) {
        const uint8_t *op = block->data + at;

        if ((op[0] == NGULO_KIND_BR || is_brcond(op[0])) && !set[label_of(op)]) {
            fprintf(stream, "  label %u, jumped to at %lu, is never set\n", (unsigned)label_of(op), (unsigned long)at);
            return;
        }
    }
}

/* The last op, which is no exit_tb. */
static void print_no_exit(FILE *stream, const struct bytes *block)
{
    struct seen seen;
    char text[LISTING_SIZE];

    look_back(block->data, block->length, &seen);
    if (seen.ops == 0) {
        fputs("  there is no op\n", stream);
    } else {
        list_record(block->data + seen.last_op, text);
        fprintf(stream, "  at %lu: %s: it is the last op\n", (unsigned long)seen.last_op, text);
    }
}

/* A record that is whole. */
static void print_record_reason(FILE *stream, const uint8_t *block, unsigned number, size_t place)
{
    struct seen seen;
    char text[LISTING_SIZE];

    look_back(block, place, &seen);
    list_record(block + place, text);
    fprintf(stream, "  at %lu: %s", (unsigned long)place, text);
    if (number == NGULO_REFUSAL_BAD_DECLARATION) {
        print_bad_declaration(stream, &seen, block + place);
    } else if (number == NGULO_REFUSAL_BAD_FIELD) {
        print_bad_field(stream, block + place);
    } else if (number == NGULO_REFUSAL_BAD_LABEL) {
        fprintf(stream, ": label %u is set already", (unsigned)label_of(block + place));
    } else if (number == NGULO_REFUSAL_TOO_MANY_OPS) {
        fprintf(stream, ": %d ops stand before it", NGULO_MAX_OPS);
    } else {
        print_operands(stream, number, &seen, block + place);
    }
    fputc('\n', stream);
}

void print_reason_of(FILE *stream, const struct bytes *block, unsigned number, size_t place)
{
    size_t left = block->length - place;
    char text[LISTING_SIZE];

    if (number == NGULO_REFUSAL_NO_EXIT) {
        print_no_exit(stream, block);
    } else if (number == NGULO_REFUSAL_BAD_LABEL && left == 0) {
        print_unset_label(stream, block);
    } else if (number == NGULO_REFUSAL_UNKNOWN_KIND) {
        fprintf(stream, "  at %lu: kind %02X%s\n", (unsigned long)place, (unsigned)block->data[place],
                is_narrow_bswap64(block->data[place]) ? ": bswap64 has a 64-bit form only, B3" : "");
    } else if (number == NGULO_REFUSAL_RECORD_CUT) {
        list_name(block->data[place], text);
        fprintf(stream, "  at %lu: %s, a record of %lu bytes, %lu left\n", (unsigned long)place, text,
                (unsigned long)record_length(block->data[place]), (unsigned long)left);
    } else if (left > 0) {
        print_record_reason(stream, block->data, number, place);
    }
}
