/* check, list and opt. */
#include "commands.h"

#include "explain.h"
#include "input.h"
#include "listing.h"
#include "output.h"
#include "refusal.h"

#include <stdio.h>
#include <stdlib.h>

int judge_names(const struct request *request, const struct records *block)
{
    unsigned names = count_names(request->names);

    if (names > block->globals) {
        return complain("--names: %u name%s, the block declares %u global%s", names, names == 1 ? "" : "s",
                        block->globals, block->globals == 1 ? "" : "s");
    }
    return STATUS_DONE;
}

int command_check(const struct request *request)
{
    struct bytes block;
    uint64_t answer;
    int status = STATUS_DONE;

    if (read_block(request->files[0], request->hex, &block) != STATUS_DONE) {
        return STATUS_USAGE;
    }
    answer = ngulo_check(block.data, block.length);
    if (ngulo_is_refused(answer)) {
        status = say_refusal(stdout, request, request->files[0], &block, answer);
    } else {
        puts("accepted");
    }
    free(block.data);
    return status;
}

static int list(const struct request *request, const struct bytes *block)
{
    struct records records;

    cut_block(block->data, block->length, &records);
    if (judge_names(request, &records) != STATUS_DONE) {
        return STATUS_USAGE;
    }
    print_listing(&records, request->names);
    return STATUS_DONE;
}

int command_list(const struct request *request)
{
    struct bytes block;
    uint64_t answer;
    int status;

    if (read_block(request->files[0], request->hex, &block) != STATUS_DONE) {
        return STATUS_USAGE;
    }
    answer = ngulo_check(block.data, block.length);
    if (request->offsets) {
        print_places(block.data, ngulo_is_refused(answer) ? ngulo_refusal_place(answer) : block.length);
    }
    if (ngulo_is_refused(answer)) {
        status = say_refusal(stderr, request, request->files[0], &block, answer);
    } else {
        status = request->offsets ? STATUS_DONE : list(request, &block);
    }
    free(block.data);
    return status;
}

/* What the pass did to a block. */
static int explain(const struct request *request, const struct bytes *block, const uint8_t *result, size_t length)
{
    struct records source;
    struct records left;
    struct fate fates[NGULO_MAX_OPS];

    cut_block(block->data, block->length, &source);
    cut_block(result, length, &left);
    if (judge_names(request, &source) != STATUS_DONE) {
        return STATUS_USAGE;
    }
    start_fates(&source, fates);
    find_forms(&source, fates);
    if (!find_kept(&source, &left, fates)) {
        return complain("%s: the result is not what is left of the folded block", shown_name(request->files[0]));
    }
    print_fates(&source, fates, request->names);
    printf("%u op%s became %u; the block's %lu bytes became %lu\n", source.ops, source.ops == 1 ? "" : "s", left.ops,
           (unsigned long)block->length, (unsigned long)length);
    return STATUS_DONE;
}

static int hand_out(const struct request *request, const struct bytes *block, const uint8_t *result, size_t length)
{
    int to_stdout = request->out == NULL || is_stdout(request->out);

    if (request->explain && request->out != NULL && to_stdout) {
        return complain("--explain: OUT cannot be standard output, which has the explanation");
    }
    /* OUT stays as it was if the explanation cannot be written. */
    if (request->explain && finish(explain(request, block, result, length)) != STATUS_DONE) {
        return STATUS_USAGE;
    }
    if (!to_stdout) {
        return write_block(request->out, request->hex, result, length);
    }
    if (!request->explain) {
        put_block(stdout, request->hex, result, length);
    }
    return STATUS_DONE;
}

/* Standard output is only ever a result or its explanation here, so a refusal goes to standard error. */
int command_opt(const struct request *request)
{
    struct bytes block;
    uint8_t result[NGULO_MAX_RESULT];
    uint64_t answer;
    int status;

    if (read_block(request->files[0], request->hex, &block) != STATUS_DONE) {
        return STATUS_USAGE;
    }
    answer = ngulo_pass(block.data, block.length, result, sizeof result);
    if (ngulo_is_refused(answer)) {
        status = say_refusal(stderr, request, request->files[0], &block, answer);
    } else {
        status = hand_out(request, &block, result, ngulo_result_length(answer));
    }
    free(block.data);
    return status;
}
