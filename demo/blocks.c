#include "blocks.h"

#include "../tool/input.h"

#include <stdio.h>
#include <stdlib.h>
#include <string.h>

int load_block(const char *folder, const char *name, struct block *into)
{
    char path[512];
    struct bytes held = {NULL, 0};
    uint64_t answer;

    if (snprintf(path, sizeof path, "%s/%s", folder, name) >= (int)sizeof path) {
        return complain("%s: the name of this folder is too long", folder);
    }
    if (read_block(path, 1, &held) != STATUS_DONE) {
        return STATUS_USAGE;
    }
    answer = ngulo_check(held.data, held.length);
    if (!ngulo_is_refused(answer)) {
        memcpy(into->bytes, held.data, held.length);
        into->length = held.length;
    }
    free(held.data);
    return ngulo_is_refused(answer) ? complain("%s: refusal %u at %lu", path, ngulo_refusal_number(answer),
                                               (unsigned long)ngulo_refusal_place(answer))
                                    : STATUS_DONE;
}

int optimise(const struct block *block, struct block *into)
{
    uint64_t answer = ngulo_pass(block->bytes, block->length, into->bytes, sizeof into->bytes);

    if (ngulo_is_refused(answer)) {
        return complain("ngulo_pass: refusal %u", ngulo_refusal_number(answer));
    }
    into->length = ngulo_result_length(answer);
    return STATUS_DONE;
}
