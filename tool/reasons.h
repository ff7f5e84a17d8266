/* Why a rule is broken, in words: the check has said which, and where. */
#ifndef NGULO_REASONS_H
#define NGULO_REASONS_H

#include "input.h"

#include <stdio.h>

/* Prints, on a line of its own, the record that a refusal from 1 to 10 is about, or what is missing, and what is wrong. */
void print_reason_of(FILE *stream, const struct bytes *block, unsigned number, size_t place);

#endif
