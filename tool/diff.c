/* diff: two blocks on the same state, or on many seeded ones. */
#include "commands.h"
#include "differ.h"
#include "input.h"
#include "refusal.h"
#include "seeded.h"
#include "words.h"

#include <inttypes.h>
#include <stdio.h>
#include <stdlib.h>

#define DEFAULT_SEED UINT64_C(1)
#define DEFAULT_RUNS UINT64_C(1000)

static void say_endings(const struct side sides[2], const struct state *state,
                        uint64_t reports[2][NGULO_REPORT_LENGTH])
{
    char ending[ENDING_SIZE];
    int i;

    for (i = 0; i < 2; i += 1) {
        ending_words(reports[i], state->memory.length, ending);
        printf("\n%s: %s", sides[i].name, ending);
    }
    putchar('\n');
}

/* What was found on one state; a difference is printed already. Answers the exit status. */
static int say_found(enum difference found, const struct side sides[2], const struct state *state,
                     uint64_t reports[2][NGULO_REPORT_LENGTH])
{
    int status = STATUS_REFUSED;

    switch (found) {
    case SAME:
        fputs("no difference", stdout);
        status = STATUS_DONE;
        break;
    case MORE_OPS:
        printf("more ops run by %s", sides[1].name);
        break;
    case DIFFERENT:
        break;
    case EXEMPT:
        printf("nothing to compare: %s meets an op without a stated result", sides[0].name);
        status = STATUS_USAGE;
        break;
    case UNFIT:
        return complain("the state does not fit both blocks");
    }
    say_endings(sides, state, reports);
    return status;
}

/* Does the state fit the first block? Its globals are declared as the second's are. */
static int judge_state(const struct request *request, const struct bytes *block, const struct state *state)
{
    struct state tried;
    uint64_t report[NGULO_REPORT_LENGTH];
    uint64_t answer;

    if (copy_state(state, &tried) != STATUS_DONE) {
        return STATUS_USAGE;
    }
    answer = ngulo_run(block->data, block->length, tried.globals, tried.globals_length, tried.memory.data,
                       tried.memory.length, report);
    free_state(&tried);
    return ngulo_is_refused(answer) ? say_refusal(stdout, request, request->files[0], block, answer) : STATUS_DONE;
}

/* On the state that the request lends. */
static int diff_given(const struct request *request, const struct bytes *first, const struct side sides[2])
{
    uint64_t reports[2][NGULO_REPORT_LENGTH];
    struct state state;
    int status;

    if (take_state(request, &state) != STATUS_DONE) {
        return STATUS_USAGE;
    }
    status = judge_state(request, first, &state);
    if (status == STATUS_DONE) {
        status = say_found(compare_runs(sides, &state, reports), sides, &state, reports);
    }
    free_state(&state);
    return status;
}

/* What many runs came to. */
struct tally {
    uint64_t seed;
    uint64_t runs;
    uint64_t endings[NGULO_ENDING_NO_RESULT + 1];
    uint64_t more_ops; /* runs in which the second side has more ops, and nothing else */
    uint64_t more_ops_seed; /* the first of them */
};

/* A state that tells the sides apart, and how to have it again. */
static void say_state_of(uint64_t seed, const struct request *request, const struct state *state)
{
    size_t i;

    printf("with seed %" PRIu64 " (alone: diff --seed %" PRIu64 " --runs 1, run --seed %" PRIu64, seed, seed, seed);
    if (request->memory_text != NULL) {
        printf(", each with --memory %lu", (unsigned long)request->memory_length);
    }
    fputs("): globals", stdout);
    for (i = 0; i < state->globals_length; i += 1) {
        printf(" 0x%" PRIx64, state->globals[i]);
    }
    printf(", %lu bytes of memory\n", (unsigned long)state->memory.length);
}

/* Runs from seed to seed, until a difference. Answers a status. */
static int count_runs(const struct request *request, const struct side sides[2], const struct records *block,
                      struct state *state, struct tally *tally)
{
    uint64_t reports[2][NGULO_REPORT_LENGTH];
    uint64_t i;

    for (i = 0; i < tally->runs; i += 1) {
        enum difference found;

        seed_state(tally->seed + i, request, block, state);
        found = compare_runs(sides, state, reports);
        if (found == DIFFERENT || found == UNFIT) {
            int status = say_found(found, sides, state, reports);

            say_state_of(tally->seed + i, request, state);
            return status;
        }
        tally->endings[ngulo_report_ending(reports[0]) % (NGULO_ENDING_NO_RESULT + 1)] += 1;
        if (found == MORE_OPS) {
            tally->more_ops_seed = tally->more_ops == 0 ? tally->seed + i : tally->more_ops_seed;
            tally->more_ops += 1;
        }
    }
    return STATUS_DONE;
}

static int say_tally(const struct side sides[2], const struct tally *tally)
{
    uint64_t exits = tally->endings[NGULO_ENDING_EXIT];
    uint64_t faults = tally->endings[NGULO_ENDING_FAULT];
    uint64_t exempt = tally->endings[NGULO_ENDING_NO_RESULT];

    if (tally->more_ops > 0) {
        printf("more ops run by %s, first with seed %" PRIu64 ", and no other difference: ", sides[1].name,
               tally->more_ops_seed);
    } else {
        fputs(exempt == tally->runs ? "nothing to compare: " : "no difference: ", stdout);
    }
    printf("runs %" PRIu64 ", from seed %" PRIu64 "; exits %" PRIu64 ", faults %" PRIu64
           ", no stated result %" PRIu64 "%s\n",
           tally->runs, tally->seed, exits, faults, exempt, exempt > 0 ? ", not compared" : "");
    if (tally->more_ops > 0) {
        return STATUS_REFUSED;
    }
    if (exits == 0 && faults > 0) {
        puts("none came to an exit: try --memory N, or globals of your own");
    }
    return exempt == tally->runs ? STATUS_USAGE : STATUS_DONE;
}

static int diff_seeded(const struct request *request, const struct side sides[2])
{
    struct tally tally = {0, 0, {0, 0, 0, 0}, 0, 0};
    struct records block;
    struct state state;
    int status;

    if (make_room_for_seeded(&state) != STATUS_DONE) {
        return STATUS_USAGE;
    }
    tally.seed = request->seed_text == NULL ? DEFAULT_SEED : request->seed;
    tally.runs = request->runs_text == NULL ? DEFAULT_RUNS : request->runs;
    cut_block(sides[0].block, sides[0].length, &block);
    status = count_runs(request, sides, &block, &state, &tally);
    free_state(&state);
    return status == STATUS_DONE ? say_tally(sides, &tally) : status;
}

static int diff_blocks(const struct request *request, const struct bytes blocks[2])
{
    struct side sides[2];
    int i;

    for (i = 0; i < 2; i += 1) {
        uint64_t answer = ngulo_check(blocks[i].data, blocks[i].length);

        if (ngulo_is_refused(answer)) {
            return say_refusal(stdout, request, request->files[i], &blocks[i], answer);
        }
        sides[i].name = shown_name(request->files[i]);
        sides[i].block = blocks[i].data;
        sides[i].length = blocks[i].length;
    }
    if (print_other_globals(sides)) {
        putchar('\n');
        return STATUS_REFUSED;
    }
    return has_state(request) ? diff_given(request, &blocks[0], sides) : diff_seeded(request, sides);
}

int command_diff(const struct request *request)
{
    struct bytes blocks[2];
    int status;

    if (read_block(request->files[0], request->hex, &blocks[0]) != STATUS_DONE) {
        return STATUS_USAGE;
    }
    status = read_block(request->files[1], request->hex, &blocks[1]);
    if (status == STATUS_DONE) {
        status = diff_blocks(request, blocks);
        free(blocks[1].data);
    }
    free(blocks[0].data);
    return status;
}
