#include "homemade.h"

#include "../tool/records.h"

#include <string.h>

/* Which ops are kept, and which variables are needed later. */
struct cleaning {
    struct records block;
    int kept[NGULO_MAX_OPS];
    int needed[NGULO_MAX_VARIABLES];
};

/*
 * What is needed before an op that may lead elsewhere: globals, and local temporaries unless it leaves the block. A
 * brcond may also go on with the next op, and what is needed there stays needed.
 */
static void need_lasting(struct cleaning *c, uint8_t kind)
{
    unsigned v;

    for (v = 0; v < c->block.variables; v += 1) {
        unsigned lasts = class_of(&c->block, v);
        int elsewhere = lasts == NGULO_CLASS_GLOBAL || (lasts == NGULO_CLASS_LOCAL && kind != NGULO_KIND_EXIT_TB);

        c->needed[v] = elsewhere || (is_brcond(kind) && c->needed[v]);
    }
}

/* Decides on one op; all later ones are decided. */
static void clean_op(struct cleaning *c, unsigned position)
{
    const uint8_t *op = op_at(&c->block, position);
    const struct shape *shape = shape_of(op[0]);
    unsigned k;

    if (is_edge(op[0]) || is_brcond(op[0])) {
        need_lasting(c, op[0]);
    }
    /* The mistake is what is missing here: an access may fault, and then every global is seen. */
    c->kept[position] = shape->outputs == 0 || is_access(op[0]) || c->needed[op[1]];
    if (!c->kept[position]) {
        return;
    }
    if (shape->outputs == 1) {
        c->needed[op[1]] = 0;
    }
    for (k = 0; k < shape->inputs; k += 1) {
        c->needed[op[1 + shape->outputs + k]] = 1;
    }
}

size_t homemade_pass(const uint8_t *block, size_t length, uint8_t *out)
{
    struct cleaning c;
    size_t written;
    unsigned i;

    memset(&c, 0, sizeof c);
    cut_block(block, length, &c.block);
    for (i = c.block.ops; i > 0; i -= 1) {
        clean_op(&c, i - 1);
    }
    written = (size_t)(op_at(&c.block, 0) - block);
    memcpy(out, block, written);
    for (i = 0; i < c.block.ops; i += 1) {
        if (c.kept[i]) {
            memcpy(out + written, op_at(&c.block, i), record_length(op_at(&c.block, i)[0]));
            written += record_length(op_at(&c.block, i)[0]);
        }
    }
    return written;
}
