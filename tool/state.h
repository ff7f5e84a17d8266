/* Globals and memory to run on. */
#ifndef NGULO_STATE_H
#define NGULO_STATE_H

#include "input.h"
#include "request.h"

struct state {
    uint64_t *globals;
    size_t globals_length;
    struct bytes memory;
};

/* The owner frees a state. Each of these answers a status, and what is wrong is said on standard error. */

/* All zero. */
int make_state(size_t globals_length, size_t memory_length, struct state *into);

/* The state that a request lends. */
int take_state(const struct request *request, struct state *into);

int copy_state(const struct state *from, struct state *into);

int same_state(const struct state *a, const struct state *b);

void free_state(struct state *state);

#endif
