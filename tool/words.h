/* Reports in words. */
#ifndef NGULO_WORDS_H
#define NGULO_WORDS_H

#include <stddef.h>
#include <stdint.h>

/* Room for an ending in words. */
#define ENDING_SIZE 192

/*
 * The ending of a run on a memory of this length: "exit 0x2a after 5 ops", "no stated result at op 4 after 2 ops",
 * "fault after 1 op: load of 4 bytes at 0xd, unsigned, little-endian: it reaches past the end of the 16-byte memory".
 */
void ending_words(const uint64_t report[4], size_t memory_length, char text[ENDING_SIZE]);

/* Where no result is stated for an op of this kind; "" if it always has one. */
const char *unstated_words(uint8_t kind);

#endif
