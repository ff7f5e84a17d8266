/* Two blocks run on the same globals and memory, and the first thing in which they differ. */
#ifndef NGULO_DIFFER_H
#define NGULO_DIFFER_H

#include "records.h"
#include "state.h"

/* An accepted block, and what to call it. */
struct side {
    const char *name;
    const uint8_t *block;
    size_t length;
};

/* EXEMPT: the first side's run meets an op without a stated result, so nothing is asked of the second. */
enum difference { SAME, MORE_OPS, DIFFERENT, EXEMPT, UNFIT };

/* Prints how the declared globals of two sides differ, without a line feed: 1 if they do, else 0. */
int print_other_globals(const struct side sides[2]);

/*
 * Runs both sides, each on a copy of the state. UNFIT if one refuses it. DIFFERENT if the endings, globals or memories
 * are not alike: then the first difference is printed in words, without a line feed. MORE_OPS if that is all that the
 * second side has.
 */
enum difference compare_runs(const struct side sides[2], const struct state *state,
                             uint64_t reports[2][NGULO_REPORT_LENGTH]);

#endif
