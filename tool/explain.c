#include "explain.h"

#include "listing.h"
#include "probe.h"
#include "words.h"

#include <stdio.h>
#include <string.h>

static int reads(const uint8_t *op, unsigned variable)
{
    const struct shape *shape = shape_of(op[0]);

    return memchr(op + 1 + shape->outputs, (int)variable, shape->inputs) != NULL;
}

static int writes(const uint8_t *op, unsigned variable)
{
    return shape_of(op[0])->outputs == 1 && op[1] == variable;
}

/*
 * The ops of an extended basic block from its start to a position, and an exit. Every brcond among them jumps to one
 * label before the exit. There is room for it: the block sets the brcond's own after the position. Answers how many ops
 * stand after the position's.
 */
static unsigned make_probe(struct probe *probe, const struct records *block, unsigned start, unsigned position)
{
    static const uint8_t label[2] = {NGULO_KIND_SET_LABEL, 0};
    int jumps = 0;
    unsigned i;

    start_probe(probe, block);
    for (i = start; i <= position; i += 1) {
        add_record(probe, op_at(block, i));
        if (is_brcond(op_at(block, i)[0])) {
            probe->bytes[probe->length - 1] = label[1];
            jumps = 1;
        }
    }
    if (jumps) {
        add_record(probe, label);
    }
    add_record(probe, last_op(block));
    return jumps ? 2 : 1;
}

/*
 * What fold makes of an op that is neither edge nor brcond, knowing what the ops of its extended basic block before it
 * wrote: the probe ends after it, with all variables live, so that nothing drops it.
 */
static void find_form(const struct records *block, unsigned start, unsigned position, uint8_t form[LONGEST_RECORD])
{
    struct probe probe;
    struct records made;
    uint8_t result[NGULO_MAX_RESULT];
    unsigned after = make_probe(&probe, block, start, position);
    uint64_t answer = ngulo_pass(probe.bytes, probe.length, result, sizeof result);

    cut_block(result, ngulo_is_refused(answer) ? 0 : ngulo_result_length(answer), &made);
    if (made.ops > after) {
        const uint8_t *op = op_at(&made, made.ops - after - 1);

        memcpy(form, op, record_length(op[0]));
    }
}

/* What fold knows a variable by at a position: the movi that wrote it last in the extended basic block; else NULL. */
static const uint8_t *known_by(const struct fate fates[NGULO_MAX_OPS], unsigned start, unsigned position,
                               unsigned variable)
{
    unsigned i = position;

    while (i > start && !writes(fates[i - 1].form, variable)) {
        i -= 1;
    }
    return i > start && is_movi(fates[i - 1].form[0]) ? fates[i - 1].form : NULL;
}

/* Is no result stated for an op although its inputs are all known? A run of their movis and the op stops there. */
static int find_unstated(const struct records *block, const struct fate fates[NGULO_MAX_OPS], unsigned start,
                         unsigned position)
{
    const uint8_t *op = op_at(block, position);
    const struct shape *shape = shape_of(op[0]);
    uint64_t globals[NGULO_MAX_VARIABLES] = {0};
    uint64_t report[NGULO_REPORT_LENGTH];
    struct probe probe;
    uint64_t answer;
    unsigned k;

    start_probe(&probe, block);
    for (k = 1; k <= shape->inputs; k += 1) {
        const uint8_t *movi = known_by(fates, start, position, op[shape->outputs + k]);

        if (movi == NULL) {
            return 0;
        }
        add_record(&probe, movi);
    }
    add_record(&probe, op);
    add_record(&probe, last_op(block));
    answer = ngulo_run_nullable(probe.bytes, probe.length, globals, block->variables, NULL, 0, report);
    return !ngulo_is_refused(answer) && ngulo_report_ending(report) == NGULO_ENDING_NO_RESULT;
}

static int same_record(const uint8_t *a, const uint8_t *b)
{
    return a[0] == b[0] && memcmp(a, b, record_length(a[0])) == 0;
}

void start_fates(const struct records *block, struct fate fates[NGULO_MAX_OPS])
{
    unsigned i;

    memset(fates, 0, NGULO_MAX_OPS * sizeof *fates);
    for (i = 0; i < block->ops; i += 1) {
        memcpy(fates[i].form, op_at(block, i), record_length(op_at(block, i)[0]));
    }
}

void find_forms(const struct records *block, struct fate fates[NGULO_MAX_OPS])
{
    unsigned start = 0;
    unsigned i;

    for (i = 0; i < block->ops; i += 1) {
        if (is_edge(op_at(block, i)[0])) {
            start = i + 1;
        } else if (!is_brcond(op_at(block, i)[0])) {
            find_form(block, start, i, fates[i].form);
            fates[i].folded = !same_record(fates[i].form, op_at(block, i));
            fates[i].unstated = !fates[i].folded && find_unstated(block, fates, start, i);
        }
    }
}

/* Of like ops with nothing kept between them the last is the one that is kept: the same is live after each. */
int find_kept(const struct records *block, const struct records *result, struct fate fates[NGULO_MAX_OPS])
{
    unsigned left = result->ops;
    unsigned i;

    for (i = block->ops; i > 0; i -= 1) {
        if (left > 0 && same_record(fates[i - 1].form, op_at(result, left - 1))) {
            fates[i - 1].kept = 1;
            left -= 1;
        }
    }
    return left == 0;
}

/* The first op after a position that is left and reads or writes a variable, or is an edge. The last op is one. */
static unsigned next_use(const struct fate fates[NGULO_MAX_OPS], unsigned position, unsigned variable)
{
    unsigned i = position + 1;

    while (!(fates[i].kept && (is_edge(fates[i].form[0]) || reads(fates[i].form, variable) ||
                               writes(fates[i].form, variable)))) {
        i += 1;
    }
    return i;
}

/* Does a variable live on after an edge that ends its extended basic block? */
static int outlives(const struct records *block, unsigned variable, const uint8_t *edge)
{
    unsigned lasts = class_of(block, variable);

    return lasts == NGULO_CLASS_GLOBAL || (lasts == NGULO_CLASS_LOCAL && edge[0] != NGULO_KIND_EXIT_TB);
}

/*
 * The first op after a position that is left and from which a run may take another way than to the next op, one on
 * which the value of the variable may be wanted: a brcond, or for a global a load or store. Else the last op.
 */
static unsigned next_way_out(const struct records *block, const struct fate fates[NGULO_MAX_OPS], unsigned position,
                             unsigned variable)
{
    int global = class_of(block, variable) == NGULO_CLASS_GLOBAL;
    unsigned i = position + 1;

    while (i + 1 < block->ops &&
           !(fates[i].kept && (is_brcond(fates[i].form[0]) || (global && is_access(fates[i].form[0]))))) {
        i += 1;
    }
    return i;
}

/* Why the output of an op is live although the ops after it, one after the other, do not want it. */
static void print_way_out(const struct records *block, const struct fate fates[NGULO_MAX_OPS], unsigned position,
                          const char *names)
{
    unsigned variable = op_at(block, position)[1];
    unsigned i = next_way_out(block, fates, position, variable);

    if (is_brcond(fates[i].form[0])) {
        printf("op %u may jump to label %u, where ", i, (unsigned)label_of(fates[i].form));
        print_variable(variable, names);
        fputs(" is live", stdout);
    } else {
        printf("op %u may fault, and then global ", i);
        print_variable(variable, names);
        fputs(" is seen", stdout);
    }
}

/* Where an extended basic block ends, by its edge. */
static void print_block_end(const uint8_t *edge, unsigned position)
{
    printf("its extended basic block, which ends %s op %u", edge[0] == NGULO_KIND_SET_LABEL ? "before" : "with",
           position);
}

/* Why the output of a kept op is live: it is read, or its life goes on; else a brcond or an access is next. */
static void print_use(const struct records *block, const struct fate fates[NGULO_MAX_OPS], unsigned position,
                      const char *names)
{
    unsigned variable = op_at(block, position)[1];
    unsigned i = next_use(fates, position, variable);

    if (reads(fates[i].form, variable)) {
        printf("op %u reads ", i);
        print_variable(variable, names);
    } else if (is_edge(fates[i].form[0]) && outlives(block, variable, fates[i].form)) {
        print_variable(variable, names);
        fputs(" outlives ", stdout);
        print_block_end(fates[i].form, i);
    } else {
        print_way_out(block, fates, position, names);
    }
}

/* Why the output of a dropped op is dead: an op that is left writes it first, or its life ends. */
static void print_end(const struct records *block, const struct fate fates[NGULO_MAX_OPS], unsigned position,
                      const char *names)
{
    unsigned variable = op_at(block, position)[1];
    unsigned i = next_use(fates, position, variable);

    if (!is_edge(fates[i].form[0])) {
        printf("op %u writes ", i);
        print_variable(variable, names);
        fputs(" before any op that is left reads it", stdout);
        return;
    }
    fputs("no op that is left reads ", stdout);
    print_variable(variable, names);
    if (class_of(block, variable) == NGULO_CLASS_LOCAL) {
        printf(" before the block is left, at op %u", i);
        return;
    }
    fputs(" after it in ", stdout);
    print_block_end(fates[i].form, i);
}

static void print_fate(const struct records *block, const struct fate fates[NGULO_MAX_OPS], unsigned position,
                       const char *names)
{
    const struct fate *fate = &fates[position];
    char text[LISTING_SIZE];

    if (fate->folded) {
        list_record(fate->form, text);
        printf("folded to %s, ", text);
    } else if (fate->unstated) {
        printf("not folded (no stated result: %s), ", unstated_words(fate->form[0]));
    }
    if (!fate->kept) {
        fputs("dropped: ", stdout);
        print_end(block, fates, position, names);
    } else if (is_access(fate->form[0])) {
        fputs(shape_of(fate->form[0])->outputs == 0 ? "kept: it writes memory, and may fault" : "kept: it may fault",
              stdout);
    } else if (is_edge(fate->form[0]) || is_brcond(fate->form[0])) {
        fputs("kept", stdout);
    } else {
        fputs("kept: ", stdout);
        print_use(block, fates, position, names);
    }
    putchar('\n');
}

void print_fates(const struct records *block, const struct fate fates[NGULO_MAX_OPS], const char *names)
{
    struct columns columns = measure_ops(block);
    unsigned i;

    for (i = 0; i < block->ops; i += 1) {
        print_op(&columns, i, op_at(block, i));
        print_fate(block, fates, i, names);
    }
}
