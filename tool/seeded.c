#include "seeded.h"

/* splitmix64 */
static uint64_t next_number(uint64_t *state)
{
    uint64_t x;

    *state += 0x9E3779B97F4A7C15u;
    x = *state;
    x = (x ^ (x >> 30)) * 0xBF58476D1CE4E5B9u;
    x = (x ^ (x >> 27)) * 0x94D049BB133111EBu;
    return x ^ (x >> 31);
}

/* Within the memory or just past it. Half of them are rounded down to a multiple of 8, and so aligned for any access. */
static uint64_t make_address(uint64_t any, size_t memory_length)
{
    uint64_t address = any % (memory_length + 8);

    return any >> 63 ? address : address - address % 8;
}

static uint64_t make_value(uint64_t *state, int wide, size_t memory_length)
{
    uint64_t top = wide ? (uint64_t)1 << 63 : (uint64_t)1 << 31;
    uint64_t all = top + (top - 1);
    uint64_t any = next_number(state);

    switch (next_number(state) % 8) {
    case 0: return 0;
    case 1: return 1;
    case 2: return all;
    case 3: return top;
    case 4: return top - 1;
    case 5: return any & all;
    case 6: return (memory_length - 8 + any % 16) & all;
    default: return make_address(any, memory_length);
    }
}

static size_t make_length(uint64_t *state)
{
    uint64_t any = next_number(state);

    switch (next_number(state) % 4) {
    case 0: return NGULO_MAX_MEMORY;
    case 1: return any % 4097;
    default: return any % 65;
    }
}

int make_room_for_seeded(struct state *into)
{
    return make_state(NGULO_MAX_VARIABLES, NGULO_MAX_MEMORY, into);
}

void seed_state(uint64_t seed, const struct request *request, const struct records *block, struct state *into)
{
    uint64_t state = seed;
    size_t length = make_length(&state);
    size_t i;

    into->globals_length = block->globals;
    into->memory.length = request->memory_text == NULL ? length : request->memory_length;
    for (i = 0; i < into->globals_length; i += 1) {
        into->globals[i] = make_value(&state, type_of(block, (unsigned)i) == NGULO_TYPE_I64, into->memory.length);
    }
    for (i = 0; i < into->memory.length; i += 1) {
        into->memory.data[i] = (uint8_t)next_number(&state);
    }
}
