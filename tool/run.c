/* run: how a run ends and what it leaves. */
#include "commands.h"
#include "input.h"
#include "listing.h"
#include "output.h"
#include "refusal.h"
#include "seeded.h"
#include "trace.h"
#include "words.h"

#include <inttypes.h>
#include <stdio.h>
#include <stdlib.h>
#include <string.h>

static void say_plain_ending(const uint64_t report[4])
{
    uint64_t count = ngulo_report_count(report);

    switch (ngulo_report_ending(report)) {
    case NGULO_ENDING_EXIT:
        printf("exit 0x%" PRIx64 " after %" PRIu64 " ops\n", ngulo_report_exit_value(report), count);
        break;
    case NGULO_ENDING_FAULT:
        printf("fault %s at 0x%" PRIx64 " flags 0x%02x (%s) after %" PRIu64 " ops\n",
               ngulo_report_fault_is_store(report) ? "store" : "load", ngulo_report_fault_address(report),
               ngulo_report_fault_flags(report), ngulo_fault_reason_text(ngulo_report_fault_reason(report)), count);
        break;
    default:
        printf("no stated result at op %" PRIu64 " after %" PRIu64 " ops\n", ngulo_report_position(report), count);
        break;
    }
}

static void say_ending(const struct records *block, size_t memory_length, const uint64_t report[4])
{
    char ending[ENDING_SIZE];
    char op[LISTING_SIZE];

    ending_words(report, memory_length, ending);
    fputs(ending, stdout);
    if (ngulo_report_ending(report) == NGULO_ENDING_NO_RESULT) {
        const uint8_t *unstated = op_at(block, (unsigned)ngulo_report_position(report));

        list_record(unstated, op);
        printf(": %s: %s", op, unstated_words(unstated[0]));
    }
    putchar('\n');
}

static void say_global(const struct request *request, const struct state *state, unsigned global)
{
    const char *name;
    size_t length = request->plain ? 0 : find_name(request->names, global, &name);

    printf("global %u = 0x%" PRIx64, global, state->globals[global]);
    if (length > 0) {
        printf("  # %.*s", (int)length, name);
    }
    putchar('\n');
}

static void say_state(const struct request *request, const struct state *state)
{
    size_t i;

    for (i = 0; i < state->globals_length; i += 1) {
        say_global(request, state, (unsigned)i);
    }
    for (i = 0; request->dump_memory && i < state->memory.length; i += 16) {
        printf("memory 0x%04lx = ", (unsigned long)i);
        put_hex(stdout, state->memory.data + i, state->memory.length - i < 16 ? state->memory.length - i : 16);
    }
}

static uint64_t run_on(const struct bytes *block, struct state *state, uint64_t report[4])
{
    return ngulo_run_nullable(block->data, block->length, state->globals, state->globals_length, state->memory.data,
                              state->memory.length, report);
}

/* The trace of a run that has ended so, from the state before it: both have to agree. */
static int trace(const struct request *request, const struct records *block, struct state *before,
                 const struct state *after, const uint64_t report[4])
{
    uint64_t traced[NGULO_REPORT_LENGTH];

    trace_run(block, request->names, before->globals, before->memory.data, before->memory.length, traced);
    if (memcmp(traced, report, sizeof traced) != 0 || !same_state(before, after)) {
        return complain("the trace and the run differ");
    }
    return STATUS_DONE;
}

static int say_run(const struct request *request, const struct bytes *block, struct state *before, struct state *state)
{
    struct records records;
    uint64_t report[NGULO_REPORT_LENGTH];
    uint64_t answer = run_on(block, state, report);

    if (ngulo_is_refused(answer)) {
        return say_refusal(stdout, request, request->files[0], block, answer);
    }
    cut_block(block->data, block->length, &records);
    if (judge_names(request, &records) != STATUS_DONE) {
        return STATUS_USAGE;
    }
    if (request->trace && trace(request, &records, before, state, report) != STATUS_DONE) {
        return STATUS_USAGE;
    }
    if (request->plain) {
        say_plain_ending(report);
    } else {
        say_ending(&records, state->memory.length, report);
    }
    say_state(request, state);
    return STATUS_DONE;
}

/* The state that a seed gives, for which the block has to be accepted. */
static int take_seeded(const struct request *request, const struct bytes *block, struct state *into)
{
    uint64_t answer = ngulo_check(block->data, block->length);
    struct records records;

    if (ngulo_is_refused(answer)) {
        return say_refusal(stdout, request, request->files[0], block, answer);
    }
    if (make_room_for_seeded(into) != STATUS_DONE) {
        return STATUS_USAGE;
    }
    cut_block(block->data, block->length, &records);
    seed_state(request->seed, request, &records, into);
    return STATUS_DONE;
}

/* Two states alike: the trace changes the one, the run the other. */
static int run_block(const struct request *request, const struct bytes *block)
{
    struct state before;
    struct state state;
    int status =
        request->seed_text == NULL ? take_state(request, &before) : take_seeded(request, block, &before);

    if (status != STATUS_DONE) {
        return status;
    }
    status = STATUS_USAGE;
    if (copy_state(&before, &state) == STATUS_DONE) {
        status = say_run(request, block, &before, &state);
        free_state(&state);
    }
    free_state(&before);
    return status;
}

int command_run(const struct request *request)
{
    struct bytes block;
    int status;

    if (read_block(request->files[0], request->hex, &block) != STATUS_DONE) {
        return STATUS_USAGE;
    }
    status = run_block(request, &block);
    free(block.data);
    return status;
}
