/* Globals and memory from a seed, the same on every machine. */
#ifndef NGULO_SEEDED_H
#define NGULO_SEEDED_H

#include "records.h"
#include "request.h"
#include "state.h"

/* An empty state with room for every seeded one. Answers a status. */
int make_room_for_seeded(struct state *into);

/*
 * Globals that fit the block, many of them at the edges of what they can be, within the memory, aligned or not, or about
 * its end. The memory is as long as the request says, else by the seed: half of the seeds have at most 64 bytes, a
 * quarter at most 4,096, a quarter 65,536.
 */
void seed_state(uint64_t seed, const struct request *request, const struct records *block, struct state *into);

#endif
