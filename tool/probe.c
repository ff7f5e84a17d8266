#include "probe.h"

#include <string.h>

void add_record(struct probe *probe, const uint8_t *record)
{
    size_t length = record_length(record[0]);

    memcpy(probe->bytes + probe->length, record, length);
    probe->length += length;
}

void start_probe(struct probe *probe, const struct records *block)
{
    unsigned v;

    probe->length = 0;
    for (v = 0; v < block->variables; v += 1) {
        add_record(probe, block->at[v]);
        probe->bytes[probe->length - 2] = NGULO_CLASS_GLOBAL;
    }
}
