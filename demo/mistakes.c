#include "mistakes.h"

#include "../tool/differ.h"
#include "../tool/input.h"
#include "../tool/words.h"
#include "blocks.h"

#include <stdio.h>
#include <string.h>

/* A mistake, and a state on which it shows. */
struct mistake {
    const char *name;
    const char *source;
    const char *wrong;
    uint64_t globals[2];
    size_t globals_length;
};

enum { MEMORY = 16 };

static const struct mistake mistakes[] = {
    {"A global's write dropped because a later op overwrites it, though a load between may fault:",
     "mistakes/1-write-dropped.hex", "mistakes/1-write-dropped-wrong.hex", {0xD, 9}, 2},
    {"A load dropped because nothing reads its output:", "mistakes/2-load-dropped.hex",
     "mistakes/2-load-dropped-wrong.hex", {0xD, 9}, 2},
    {"A write dropped because a load into the same global follows, which may fault:", "mistakes/3-load-kills.hex",
     "mistakes/3-load-kills-wrong.hex", {0xD, 9}, 2},
    {"A division by a known zero folded to some number:", "mistakes/4-division-folded.hex",
     "mistakes/4-division-folded-wrong.hex", {5, 0}, 1},
    {"A known value kept past a label:", "mistakes/5-known-past-label.hex", "mistakes/5-known-past-label-wrong.hex",
     {1, 0}, 2},
};

static void print_endings(const struct side sides[2], uint64_t reports[2][NGULO_REPORT_LENGTH])
{
    char first[ENDING_SIZE];
    char second[ENDING_SIZE];

    ending_words(reports[0], MEMORY, first);
    ending_words(reports[1], MEMORY, second);
    printf(": %s: %s; %s: %s", sides[0].name, first, sides[1].name, second);
}

/*
 * Runs a block and what became of it on the mistake's state. The one difference beside those of compare_runs: a block
 * whose run meets an op without a stated result, and a target whose run does not.
 */
static enum difference compare(const struct mistake *mistake, const struct block *source, const char *name,
                               const struct block *target)
{
    uint8_t memory[MEMORY] = {0};
    uint64_t globals[2];
    uint64_t reports[2][NGULO_REPORT_LENGTH];
    struct side sides[2];
    struct state state;
    enum difference found;

    memcpy(globals, mistake->globals, sizeof globals);
    sides[0].name = "the block";
    sides[0].block = source->bytes;
    sides[0].length = source->length;
    sides[1].name = name;
    sides[1].block = target->bytes;
    sides[1].length = target->length;
    state.globals = globals;
    state.globals_length = mistake->globals_length;
    state.memory.data = memory;
    state.memory.length = sizeof memory;
    found = compare_runs(sides, &state, reports);
    if (found == EXEMPT && ngulo_report_ending(reports[1]) != NGULO_ENDING_NO_RESULT) {
        fputs("the runs end differently", stdout);
        found = DIFFERENT;
    }
    if (found == DIFFERENT && memcmp(reports[0], reports[1], NGULO_REPORT_COUNT * sizeof reports[0][0]) != 0) {
        print_endings(sides, reports);
    }
    return found;
}

/* What the runs start from. */
static void print_globals(const struct mistake *mistake)
{
    size_t i;

    for (i = 0; i < mistake->globals_length; i += 1) {
        printf("%sglobal %u = 0x%x", i == 0 ? "from " : ", ", (unsigned)i, (unsigned)mistake->globals[i]);
    }
    fputs("\n    ", stdout);
}

static int tell_mistake(const char *folder, const struct mistake *mistake)
{
    static struct block source;
    static struct block wrong;
    static struct block ours;
    enum difference found;

    if (load_block(folder, mistake->source, &source) != STATUS_DONE ||
        load_block(folder, mistake->wrong, &wrong) != STATUS_DONE || optimise(&source, &ours) != STATUS_DONE) {
        return STATUS_USAGE;
    }
    printf("  %s\n    ", mistake->name);
    print_globals(mistake);
    if (compare(mistake, &source, "the mistake", &wrong) != DIFFERENT) {
        puts("no difference");
        return STATUS_REFUSED;
    }
    fputs("\n    ", stdout);
    found = compare(mistake, &source, "ngulo_pass's block", &ours);
    if (found != SAME && found != EXEMPT) {
        putchar('\n');
        return STATUS_REFUSED;
    }
    puts(found == SAME ? "ngulo_pass's block: no difference"
                       : "ngulo_pass's block: no stated result either, though nothing is promised of such a run");
    return STATUS_DONE;
}

int tell_mistakes(const char *folder)
{
    int status = STATUS_DONE;
    size_t i;

    for (i = 0; i < sizeof mistakes / sizeof mistakes[0] && status == STATUS_DONE; i += 1) {
        status = tell_mistake(folder, &mistakes[i]);
    }
    return status;
}
