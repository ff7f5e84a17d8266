#include "differ.h"

#include <inttypes.h>
#include <stdio.h>
#include <string.h>

/* What a run left. */
struct outcome {
    uint64_t globals[NGULO_MAX_VARIABLES];
    uint8_t memory[NGULO_MAX_MEMORY];
};

int print_other_globals(const struct side sides[2])
{
    struct records first;
    struct records second;
    unsigned i;

    cut_block(sides[0].block, sides[0].length, &first);
    cut_block(sides[1].block, sides[1].length, &second);
    if (first.globals != second.globals) {
        printf("globals: %u declared by %s, %u by %s", first.globals, sides[0].name, second.globals, sides[1].name);
        return 1;
    }
    for (i = 0; i < first.globals; i += 1) {
        if (type_of(&first, i) != type_of(&second, i)) {
            printf("global %u: %d bits in %s, %d in %s", i, type_of(&first, i) == NGULO_TYPE_I32 ? 32 : 64,
                   sides[0].name, type_of(&second, i) == NGULO_TYPE_I32 ? 32 : 64, sides[1].name);
            return 1;
        }
    }
    return 0;
}

/* A run on a copy of the state: 1, or 0 if it is refused. */
static int run_side(const struct side *side, const struct state *state, struct outcome *outcome,
                    uint64_t report[NGULO_REPORT_LENGTH])
{
    if (state->globals_length > NGULO_MAX_VARIABLES || state->memory.length > NGULO_MAX_MEMORY) {
        return 0;
    }
    memcpy(outcome->globals, state->globals, state->globals_length * sizeof *state->globals);
    memcpy(outcome->memory, state->memory.data, state->memory.length);
    return !ngulo_is_refused(ngulo_run(side->block, side->length, outcome->globals, state->globals_length,
                                       outcome->memory, state->memory.length, report));
}

/* Everything of a report but the count: of a fault also its reason. */
static int endings_differ(uint64_t reports[2][NGULO_REPORT_LENGTH])
{
    if (memcmp(reports[0], reports[1], NGULO_REPORT_COUNT * sizeof(uint64_t)) == 0) {
        return 0;
    }
    fputs("the runs end differently", stdout);
    return 1;
}

static int globals_differ(const struct side sides[2], const struct outcome outcomes[2], size_t length)
{
    size_t i;

    for (i = 0; i < length; i += 1) {
        if (outcomes[0].globals[i] != outcomes[1].globals[i]) {
            printf("global %lu: 0x%" PRIx64 " after %s, 0x%" PRIx64 " after %s", (unsigned long)i,
                   outcomes[0].globals[i], sides[0].name, outcomes[1].globals[i], sides[1].name);
            return 1;
        }
    }
    return 0;
}

static int memories_differ(const struct side sides[2], const struct outcome outcomes[2], size_t length)
{
    size_t i;

    for (i = 0; i < length; i += 1) {
        if (outcomes[0].memory[i] != outcomes[1].memory[i]) {
            printf("memory 0x%04lx: %02x after %s, %02x after %s", (unsigned long)i, (unsigned)outcomes[0].memory[i],
                   sides[0].name, (unsigned)outcomes[1].memory[i], sides[1].name);
            return 1;
        }
    }
    return 0;
}

enum difference compare_runs(const struct side sides[2], const struct state *state,
                             uint64_t reports[2][NGULO_REPORT_LENGTH])
{
    static struct outcome outcomes[2];

    if (!run_side(&sides[0], state, &outcomes[0], reports[0]) ||
        !run_side(&sides[1], state, &outcomes[1], reports[1])) {
        return UNFIT;
    }
    if (ngulo_report_ending(reports[0]) == NGULO_ENDING_NO_RESULT) {
        return EXEMPT;
    }
    if (endings_differ(reports) || globals_differ(sides, outcomes, state->globals_length) ||
        memories_differ(sides, outcomes, state->memory.length)) {
        return DIFFERENT;
    }
    return ngulo_report_count(reports[1]) > ngulo_report_count(reports[0]) ? MORE_OPS : SAME;
}
