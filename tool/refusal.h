/* Refusals as the commands say them. */
#ifndef NGULO_REFUSAL_H
#define NGULO_REFUSAL_H

#include "input.h"
#include "request.h"

#include <stdio.h>

/*
 * Says a refusal of the block of a file. Plain: 'refusal NUMBER at PLACE', of two files after 'A: ' or 'B: '. Else with the file, the refusal's words, the
 * record at its place, which part of refusal 11 applies to what the request lends, and a hint on standard error if the
 * block was taken raw and looks like hex text. Answers STATUS_REFUSED.
 */
int say_refusal(FILE *stream, const struct request *request, const char *file, const struct bytes *block,
                uint64_t answer);

#endif
