/*
 * Probes: blocks made of some ops of another, whose variables are all globals, so that the library itself says what
 * those ops do or become. Nothing of what an op does is known here.
 */
#ifndef NGULO_PROBE_H
#define NGULO_PROBE_H

#include "records.h"

struct probe {
    uint8_t bytes[NGULO_MAX_RESULT];
    size_t length;
};

/* The declarations of a block, each as a global. */
void start_probe(struct probe *probe, const struct records *block);

void add_record(struct probe *probe, const uint8_t *record);

#endif
