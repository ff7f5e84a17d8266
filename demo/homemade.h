/* A home-made clean-up pass: it drops writes that a later op overwrites. It has one mistake; do not use it. */
#ifndef NGULO_DEMO_HOMEMADE_H
#define NGULO_DEMO_HOMEMADE_H

#include <stddef.h>
#include <stdint.h>

/* Writes what is left of an accepted block to out, which is at least as long. Answers its length. */
size_t homemade_pass(const uint8_t *block, size_t length, uint8_t *out);

#endif
