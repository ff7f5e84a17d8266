#include "refusal.h"

#include "reasons.h"
#include "records.h"

#include <inttypes.h>

/* Which part of refusal 11 applies: the block by itself is accepted. */
static void print_unfit(FILE *stream, const struct request *request, const struct bytes *block)
{
    struct records records;
    size_t i;

    cut_block(block->data, block->length, &records);
    if (records.globals != request->globals_length) {
        fprintf(stream, ": the block declares %u global%s, %lu given", records.globals,
                records.globals == 1 ? "" : "s", (unsigned long)request->globals_length);
        return;
    }
    for (i = 0; i < request->globals_length; i += 1) {
        if (type_of(&records, (unsigned)i) == NGULO_TYPE_I32 && request->globals[i] > UINT32_MAX) {
            fprintf(stream, ": global %lu has 32 bits, 0x%" PRIx64 " given", (unsigned long)i, request->globals[i]);
            return;
        }
    }
    fprintf(stream, ": more than %d bytes of memory given", NGULO_MAX_MEMORY);
}

int say_refusal(FILE *stream, const struct request *request, const char *file, const struct bytes *block,
                uint64_t answer)
{
    unsigned number = ngulo_refusal_number(answer);
    unsigned long place = (unsigned long)ngulo_refusal_place(answer);

    if (stream == stderr) {
        fflush(stdout);
    }
    if (request->plain) {
        fprintf(stream, "%srefusal %u at %lu\n", request->file_count < 2 ? "" : file == request->files[0] ? "A: " : "B: ",
                number, place);
        return STATUS_REFUSED;
    }
    fprintf(stream, "%s: refusal %u at %lu: %s", shown_name(file), number, place, ngulo_refusal_text(number));
    if (number == NGULO_REFUSAL_UNFIT_STATE) {
        print_unfit(stream, request, block);
    }
    fputc('\n', stream);
    if (number < NGULO_REFUSAL_UNFIT_STATE) {
        print_reason_of(stream, block, number, place);
    }
    if (!request->hex && looks_like_hex(block)) {
        complain("%s looks like hex text: is --hex missing?", shown_name(file));
    }
    return STATUS_REFUSED;
}
