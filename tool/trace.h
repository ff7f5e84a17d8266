/* A run told op by op. */
#ifndef NGULO_TRACE_H
#define NGULO_TRACE_H

#include "records.h"

/*
 * Prints each op as it runs, with the values it reads and writes. Each is run by the library in a probe. The globals
 * and the memory are changed as a run changes them; the report is that of a run.
 */
void trace_run(const struct records *block, const char *names, uint64_t *globals, uint8_t *memory, size_t memory_length,
               uint64_t report[4]);

#endif
