/* What the pass did with each op, and why. */
#ifndef NGULO_EXPLAIN_H
#define NGULO_EXPLAIN_H

#include "records.h"

/* What became of an op. */
struct fate {
    uint8_t form[LONGEST_RECORD]; /* the op after fold */
    int folded;                   /* fold made a movi of it */
    int unstated;                 /* its inputs are known to fold, but no result is stated, so it stays */
    int kept;                     /* it is in the result, in this form */
};

/* The ops as they are, none folded and none kept. */
void start_fates(const struct records *block, struct fate fates[NGULO_MAX_OPS]);

/* What fold makes of each op, and where no result is stated, as the library answers for probes. */
void find_forms(const struct records *block, struct fate fates[NGULO_MAX_OPS]);

/*
 * Which ops are kept in a result, laid beside the forms from its end. Answers 1, or 0 if the result is not what is left
 * of the forms.
 */
int find_kept(const struct records *block, const struct records *result, struct fate fates[NGULO_MAX_OPS]);

/*
 * Prints a line for each op: what it was folded to, or why it was not though its inputs are known; whether it was kept,
 * and of most why. Names are as in listing.h.
 */
void print_fates(const struct records *block, const struct fate fates[NGULO_MAX_OPS], const char *names);

#endif
