/* Records by their kind, and an accepted block cut into its records. */
#ifndef NGULO_RECORDS_H
#define NGULO_RECORDS_H

#include "ngulo.h"

#include <stddef.h>
#include <stdint.h>

/* The body of a record: operands, outputs first, then bytes that are no variables. */
struct shape {
    const char *name; /* as in a listing, without the width */
    unsigned outputs;
    unsigned inputs;
    unsigned after;
};

enum { MOST_RECORDS = NGULO_MAX_VARIABLES + NGULO_MAX_OPS, LONGEST_RECORD = 10 };

/* An accepted block, whose bytes stay its owner's. */
struct records {
    const uint8_t *at[MOST_RECORDS]; /* declarations, then ops */
    unsigned variables;
    unsigned globals;
    unsigned ops;
};

/* NULL for an unknown kind. */
const struct shape *shape_of(uint8_t kind);

/* The kind of the 32-bit form; of bswap64_i64 33, which is no kind. */
uint8_t narrow_kind(uint8_t kind);

/* Is it 33? bswap64 has a 64-bit form only. */
int is_narrow_bswap64(uint8_t kind);

/* The length of a record, its kind known. */
size_t record_length(uint8_t kind);

/* Does the op end an extended basic block, or start one: set_label, br or exit_tb? A brcond does neither. */
int is_edge(uint8_t kind);

/* qemu_ld or qemu_st? */
int is_access(uint8_t kind);

/* brcond? */
int is_brcond(uint8_t kind);

/* movi? */
int is_movi(uint8_t kind);

/* The type of the operand at a place of a record of this kind: at 1 the first. */
unsigned operand_type(uint8_t kind, unsigned place);

/* The width of an op in bits, its kind from 10 on. */
unsigned op_bits(uint8_t kind);

/* The label of set_label, br or brcond: its last byte. */
uint8_t label_of(const uint8_t *op);

void cut_block(const uint8_t *block, size_t length, struct records *into);

/* An op by its position, and the last one, which is an exit_tb. */
const uint8_t *op_at(const struct records *block, unsigned position);
const uint8_t *last_op(const struct records *block);

/* The class and the type that a variable is declared with. */
unsigned class_of(const struct records *block, unsigned variable);
unsigned type_of(const struct records *block, unsigned variable);

#endif
