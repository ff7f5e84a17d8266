#include "state.h"

#include <stdlib.h>
#include <string.h>

/* No pointer is NULL, even where the length is 0. */
int make_state(size_t globals_length, size_t memory_length, struct state *into)
{
    into->globals_length = globals_length;
    into->globals = (uint64_t *)calloc(globals_length + 1, sizeof *into->globals);
    into->memory.length = memory_length;
    into->memory.data = (uint8_t *)calloc(memory_length + 1, 1);
    if (into->globals == NULL || into->memory.data == NULL) {
        free_state(into);
        return complain("out of memory");
    }
    return STATUS_DONE;
}

int copy_state(const struct state *from, struct state *into)
{
    if (make_state(from->globals_length, from->memory.length, into) != STATUS_DONE) {
        return STATUS_USAGE;
    }
    memcpy(into->globals, from->globals, from->globals_length * sizeof *from->globals);
    memcpy(into->memory.data, from->memory.data, from->memory.length);
    return STATUS_DONE;
}

int take_state(const struct request *request, struct state *into)
{
    struct state lent;
    int status;

    lent.globals = request->globals;
    lent.globals_length = request->globals_length;
    if (request->memory_file == NULL) {
        status = make_state(request->globals_length, request->memory_length, into);
        if (status == STATUS_DONE) {
            memcpy(into->globals, request->globals, request->globals_length * sizeof *request->globals);
        }
        return status;
    }
    if (read_bytes(request->memory_file, &lent.memory) != STATUS_DONE) {
        return STATUS_USAGE;
    }
    status = copy_state(&lent, into);
    free(lent.memory.data);
    return status;
}

int same_state(const struct state *a, const struct state *b)
{
    return a->globals_length == b->globals_length && a->memory.length == b->memory.length &&
           memcmp(a->globals, b->globals, a->globals_length * sizeof *a->globals) == 0 &&
           memcmp(a->memory.data, b->memory.data, a->memory.length) == 0;
}

void free_state(struct state *state)
{
    free(state->globals);
    free(state->memory.data);
}
