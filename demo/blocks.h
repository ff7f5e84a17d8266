/* The blocks of the demonstration, read from a folder of samples. */
#ifndef NGULO_DEMO_BLOCKS_H
#define NGULO_DEMO_BLOCKS_H

#include "ngulo.h"

#include <stddef.h>
#include <stdint.h>

struct block {
    uint8_t bytes[NGULO_MAX_RESULT];
    size_t length;
};

/* An accepted block in hex text. Answers a status; what is wrong with it is said on standard error. */
int load_block(const char *folder, const char *name, struct block *into);

/* What ngulo_pass makes of an accepted block. Answers a status likewise. */
int optimise(const struct block *block, struct block *into);

#endif
