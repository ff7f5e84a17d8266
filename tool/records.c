#include "records.h"

#include <string.h>

/* From kind 00 to kind 36. */
static const struct shape shapes[] = {
    {NULL, 0, 0, 0},          {"decl", 0, 0, 2},
    {"set_label", 0, 0, 1},   {"br", 0, 0, 1},
    {"exit_tb", 0, 1, 0},     {"ext_i32_i64", 1, 1, 0},
    {"extu_i32_i64", 1, 1, 0}, {"trunc_i64_i32", 1, 1, 0},
    {NULL, 0, 0, 0},          {NULL, 0, 0, 0},
    {NULL, 0, 0, 0},          {NULL, 0, 0, 0},
    {NULL, 0, 0, 0},          {NULL, 0, 0, 0},
    {NULL, 0, 0, 0},          {NULL, 0, 0, 0},
    {"movi", 1, 0, 8},        {"mov", 1, 1, 0},
    {"neg", 1, 1, 0},         {"not", 1, 1, 0},
    {"add", 1, 2, 0},         {"sub", 1, 2, 0},
    {"mul", 1, 2, 0},         {"and", 1, 2, 0},
    {"or", 1, 2, 0},          {"xor", 1, 2, 0},
    {"andc", 1, 2, 0},        {"orc", 1, 2, 0},
    {"eqv", 1, 2, 0},         {"nand", 1, 2, 0},
    {"nor", 1, 2, 0},         {"divs", 1, 2, 0},
    {"divu", 1, 2, 0},        {"rems", 1, 2, 0},
    {"remu", 1, 2, 0},        {"shl", 1, 2, 0},
    {"shr", 1, 2, 0},         {"sar", 1, 2, 0},
    {"rotl", 1, 2, 0},        {"rotr", 1, 2, 0},
    {"setcond", 1, 2, 1},     {"movcond", 1, 4, 1},
    {"brcond", 0, 2, 2},      {"qemu_ld", 1, 1, 1},
    {"qemu_st", 0, 2, 1},     {"deposit", 1, 2, 2},
    {"extract", 1, 1, 2},     {"sextract", 1, 1, 2},
    {"extract2", 1, 2, 1},    {"bswap16", 1, 1, 1},
    {"bswap32", 1, 1, 1},     {"bswap64", 1, 1, 1},
    {"clz", 1, 2, 0},         {"ctz", 1, 2, 0},
    {"ctpop", 1, 1, 0}};

uint8_t narrow_kind(uint8_t kind)
{
    return kind >= NGULO_KIND_WIDE + NGULO_KIND_MOVI_I32 ? (uint8_t)(kind - NGULO_KIND_WIDE) : kind;
}

int is_narrow_bswap64(uint8_t kind)
{
    return kind == NGULO_KIND_BSWAP64_I64 - NGULO_KIND_WIDE;
}

const struct shape *shape_of(uint8_t kind)
{
    size_t row = narrow_kind(kind);

    if (is_narrow_bswap64(kind) || row >= sizeof shapes / sizeof shapes[0] || shapes[row].name == NULL) {
        return NULL;
    }
    return &shapes[row];
}

size_t record_length(uint8_t kind)
{
    const struct shape *shape = shape_of(kind);

    return 1 + shape->outputs + shape->inputs + shape->after;
}

int is_access(uint8_t kind)
{
    return narrow_kind(kind) == NGULO_KIND_QEMU_LD_I32 || narrow_kind(kind) == NGULO_KIND_QEMU_ST_I32;
}

int is_brcond(uint8_t kind)
{
    return narrow_kind(kind) == NGULO_KIND_BRCOND_I32;
}

int is_movi(uint8_t kind)
{
    return narrow_kind(kind) == NGULO_KIND_MOVI_I32;
}

int is_edge(uint8_t kind)
{
    return kind == NGULO_KIND_SET_LABEL || kind == NGULO_KIND_BR || kind == NGULO_KIND_EXIT_TB;
}

unsigned operand_type(uint8_t kind, unsigned place)
{
    switch (kind) {
    case NGULO_KIND_EXIT_TB:
        return NGULO_TYPE_I64;
    case NGULO_KIND_EXT_I32_I64:
    case NGULO_KIND_EXTU_I32_I64:
        return place == 1 ? NGULO_TYPE_I64 : NGULO_TYPE_I32;
    case NGULO_KIND_TRUNC_I64_I32:
        return place == 1 ? NGULO_TYPE_I32 : NGULO_TYPE_I64;
    default: /* by the op's width, but for an address */
        return kind >= NGULO_KIND_WIDE || (is_access(kind) && place == 2) ? NGULO_TYPE_I64 : NGULO_TYPE_I32;
    }
}

unsigned op_bits(uint8_t kind)
{
    return kind >= NGULO_KIND_WIDE ? 64 : 32;
}

uint8_t label_of(const uint8_t *op)
{
    return op[record_length(op[0]) - 1];
}

void cut_block(const uint8_t *block, size_t length, struct records *into)
{
    size_t at;

    memset(into, 0, sizeof *into);
    for (at = 0; at < length; at += record_length(block[at])) {
        into->at[into->variables + into->ops] = block + at;
        if (block[at] == NGULO_KIND_DECL) {
            into->variables += 1;
            into->globals += block[at + 1] == NGULO_CLASS_GLOBAL;
        } else {
            into->ops += 1;
        }
    }
}

const uint8_t *op_at(const struct records *block, unsigned position)
{
    return block->at[block->variables + position];
}

const uint8_t *last_op(const struct records *block)
{
    return op_at(block, block->ops - 1);
}

unsigned class_of(const struct records *block, unsigned variable)
{
    return block->at[variable][1];
}

unsigned type_of(const struct records *block, unsigned variable)
{
    return block->at[variable][2];
}
