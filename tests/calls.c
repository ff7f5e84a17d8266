/*
 * The calls for C on case 12, on a fault, on an op without a stated result, across a conditional branch, on every
 * refusal, at the limits, with no bytes lent, and in place; the conditions at the corners of both widths; loads and
 * stores with all flags, about the ends of memories and of addresses, each run and optimised; bit fields at every
 * position and length, swaps with all flags, and counts, each run and folded. Answers 0 if all are as they should be.
 */
#include "ngulo.h"

#include <stdio.h>
#include <string.h>

static int failures;

static void expect(const char *what, uint64_t found, uint64_t expected)
{
    if (found != expected) {
        printf("%s: found %llx, expected %llx\n", what, (unsigned long long)found, (unsigned long long)expected);
        failures += 1;
    }
}

static void expect_report(const char *what, const uint64_t report[4], uint64_t ending, uint64_t x, uint64_t y, uint64_t count)
{
    expect(what, report[0], ending);
    expect(what, report[1], x);
    expect(what, report[2], y);
    expect(what, report[3], count);
}

/* "000's three-op example, whole." */
static const uint8_t case12[] = {0x01, 0x00, 0x01, 0x01, 0x00, 0x00, 0x01, 0x00, 0x00, 0x01, 0x00, 0x00, 0x01, 0x02, 0x00, 0x10, 0x04, 0x01, 0x00,
                                 0x00, 0x00, 0x00, 0x00, 0x00, 0x00, 0x14, 0x01, 0x02, 0x03, 0x14, 0x01, 0x01, 0x04, 0x11, 0x01, 0x04, 0x04, 0x00};
static const uint8_t case12_out[] = {0x01, 0x00, 0x01, 0x01, 0x00, 0x00, 0x01, 0x00, 0x00, 0x01, 0x00, 0x00, 0x01, 0x02,
                                     0x00, 0x10, 0x01, 0x01, 0x00, 0x00, 0x00, 0x00, 0x00, 0x00, 0x00, 0x04, 0x00};

static void optimises(void)
{
    uint8_t out[64];
    uint8_t short_out[26];
    size_t i;

    expect("case 12: check", ngulo_check(case12, sizeof case12), 0);
    memset(out, 0xEE, sizeof out);
    expect("case 12: pass", ngulo_pass(case12, sizeof case12, out, sizeof out), 256 * sizeof case12_out);
    expect("case 12: result", (uint64_t)memcmp(out, case12_out, sizeof case12_out), 0);
    for (i = sizeof case12_out; i < sizeof out; i += 1) {
        expect("case 12: bytes after the result", out[i], 0xEE);
    }
    memset(short_out, 0xEE, sizeof short_out);
    expect("a buffer one byte too short", ngulo_pass(case12, sizeof case12, short_out, sizeof short_out), 12);
    for (i = 0; i < sizeof short_out; i += 1) {
        expect("a refused call's buffer", short_out[i], 0xEE);
    }
}

static void runs(void)
{
    uint64_t globals[4] = {7, 2, 3, 4};
    uint64_t report[4] = {9, 9, 9, 9};

    expect("case 12: run", ngulo_run_nullable(case12, sizeof case12, globals, 4, NULL, 0, report), 0);
    expect_report("case 12: before", report, 1, 7, 0, 5);
    expect("case 12: global 1", globals[1], 1);
    globals[1] = 2;
    expect("case 12: run of the result", ngulo_run_nullable(case12_out, sizeof case12_out, globals, 4, NULL, 0, report), 0);
    expect_report("case 12: after", report, 1, 7, 0, 2);
    expect("case 12: global 1", globals[1], 1);
    expect("too few globals", ngulo_run_nullable(case12, sizeof case12, globals, 3, NULL, 0, report), 11);
    expect_report("a refused run's report", report, 1, 7, 0, 2);
}

/* The pass onto the block itself gives the bytes of the pass, or leaves the buffer. */
static void optimises_in_place(void)
{
    uint8_t buffer[64];
    size_t i;

    memset(buffer, 0xEE, sizeof buffer);
    memcpy(buffer, case12, sizeof case12);
    expect("in place", ngulo_pass_in_place(buffer, sizeof case12, sizeof buffer), 256 * sizeof case12_out);
    expect("in place: result", (uint64_t)memcmp(buffer, case12_out, sizeof case12_out), 0);
    for (i = sizeof case12_out; i < sizeof buffer; i += 1) {
        expect("in place: bytes after the result", buffer[i], i < sizeof case12 ? case12[i] : 0xEE);
    }
    memcpy(buffer, case12, sizeof case12);
    expect("in place: exact room", ngulo_pass_in_place(buffer, sizeof case12, sizeof case12), 256 * sizeof case12_out);
    expect("in place: the result again", ngulo_pass_in_place(buffer, sizeof case12_out, sizeof case12), 256 * sizeof case12_out);
    expect("in place: the result again", (uint64_t)memcmp(buffer, case12_out, sizeof case12_out), 0);
}

/* a constant to one global, a copy of it to another, an exit: the copy becomes a constant, and the block longer */
static const uint8_t longer[] = {0x01, 0x00, 0x01, 0x01, 0x00, 0x01, 0x90, 0x00, 0x07, 0x00, 0x00, 0x00,
                                 0x00, 0x00, 0x00, 0x00, 0x91, 0x01, 0x00, 0x04, 0x01};

/* A result longer than its block is refused without room, and the buffer left; with room it is the bytes of the pass. */
static void grows_in_place(void)
{
    uint8_t out[NGULO_MAX_RESULT];
    uint8_t buffer[NGULO_MAX_RESULT];
    uint64_t answer = ngulo_pass(longer, sizeof longer, out, sizeof out);
    size_t length = ngulo_result_length(answer);

    expect("a longer result", answer, 256 * (sizeof longer + 7));
    expect("a longer result: bound", length <= ngulo_result_bound(sizeof longer), 1);
    memcpy(buffer, longer, sizeof longer);
    expect("no room in place", ngulo_pass_in_place(buffer, sizeof longer, length - 1), NGULO_REFUSAL_NO_ROOM);
    expect("no room in place: buffer", (uint64_t)memcmp(buffer, longer, sizeof longer), 0);
    expect("room in place", ngulo_pass_in_place(buffer, sizeof longer, length), answer);
    expect("room in place: result", (uint64_t)memcmp(buffer, out, length), 0);
    memcpy(buffer, longer, sizeof longer);
    buffer[0] = 0xFF;
    expect("refused in place", ngulo_pass_in_place(buffer, sizeof longer, sizeof buffer), NGULO_REFUSAL_UNKNOWN_KIND);
    expect("refused in place: buffer", (uint64_t)memcmp(buffer + 1, longer + 1, sizeof longer - 1) || buffer[0] != 0xFF, 0);
}

/* a global written, a 4-byte store past the memory, an exit */
static const uint8_t faulting[] = {0x01, 0x00, 0x01, 0x01, 0x00, 0x00, 0x10, 0x01, 0x05, 0x00, 0x00, 0x00, 0x00, 0x00, 0x00, 0x00, 0x2C, 0x01, 0x00, 0x02, 0x04, 0x00};
/* a division of a global by zero, an exit */
static const uint8_t unstated[] = {0x01, 0x00, 0x01, 0x90, 0x00, 0x00, 0x00, 0x00, 0x00, 0x00, 0x00, 0x00, 0x00, 0xA0, 0x00, 0x00, 0x00, 0x04, 0x00};

static void stops(void)
{
    uint64_t globals[2] = {6, 1};
    uint64_t report[4] = {9, 9, 9, 9};
    uint8_t memory[8] = {0};

    expect("a faulting store", ngulo_run(faulting, sizeof faulting, globals, 2, memory, sizeof memory, report), 0);
    expect_report("a faulting store", report, 2, 6, 0x02 + 256, 2);
    expect("the global before the fault", globals[1], 5);
    expect("a division by zero", ngulo_run(unstated, sizeof unstated, globals, 1, memory, sizeof memory, report), 0);
    expect_report("a division by zero", report, 3, 1, 0, 1);
}

/* v2, a temporary, is 2; to label 0 if v0 = v1; v1 = v2 + v2; label 0; an exit with v0 */
static const uint8_t across[] = {0x01, 0x00, 0x01, 0x01, 0x00, 0x01, 0x01, 0x02, 0x01, 0x90, 0x02, 0x02, 0x00, 0x00, 0x00, 0x00, 0x00, 0x00, 0x00,
                                 0xAA, 0x00, 0x01, 0x00, 0x00, 0x94, 0x01, 0x02, 0x02, 0x02, 0x00, 0x04, 0x00};
/* v1 = 4 in place of the sum, and v2 is dead */
static const uint8_t across_out[] = {0x01, 0x00, 0x01, 0x01, 0x00, 0x01, 0x01, 0x02, 0x01, 0xAA, 0x00, 0x01, 0x00, 0x00,
                                     0x90, 0x01, 0x04, 0x00, 0x00, 0x00, 0x00, 0x00, 0x00, 0x00, 0x02, 0x00, 0x04, 0x00};

static void runs_across(const uint8_t *block, size_t length, uint64_t v1, uint64_t v1_after, uint64_t count)
{
    uint64_t globals[2] = {7, v1};
    uint64_t report[4] = {9, 9, 9, 9};

    expect("across a branch: run", ngulo_run_nullable(block, length, globals, 2, NULL, 0, report), 0);
    expect_report("across a branch", report, NGULO_ENDING_EXIT, 7, 0, count);
    expect("across a branch: global 1", globals[1], v1_after);
}

/* A temporary is read, and its value known, past a brcond that does not jump. */
static void branches(void)
{
    uint8_t out[64];

    expect("across a branch: check", ngulo_check(across, sizeof across), 0);
    expect("across a branch: pass", ngulo_pass(across, sizeof across, out, sizeof out), 256 * sizeof across_out);
    expect("across a branch: result", (uint64_t)memcmp(out, across_out, sizeof across_out), 0);
    runs_across(across, sizeof across, 7, 7, 4);
    runs_across(across, sizeof across, 8, 4, 5);
    runs_across(across_out, sizeof across_out, 7, 7, 3);
    runs_across(across_out, sizeof across_out, 8, 4, 4);
}

static void refuses(void)
{
    static const uint8_t cut[] = {0x01, 0x00};
    static const uint8_t unknown[] = {0x01, 0x00, 0x01, 0xFF};

    expect("an empty block", ngulo_check(cut, 0), 10);
    expect("a record past the end", ngulo_check(cut, sizeof cut), 1);
    expect("an unknown kind", ngulo_check(unknown, sizeof unknown), 2 + 256 * 3);
}

/* A block, and the refusal its check answers. */
struct refused_block {
    const char *what;
    uint8_t bytes[18];
    size_t length;
    unsigned number;
    size_t place;
};

static const struct refused_block refused_blocks[] = {
    {"a record past the end", {0x01, 0x00, 0x01, 0x04}, 4, NGULO_REFUSAL_RECORD_CUT, 3},
    {"kind 00", {0x00}, 1, NGULO_REFUSAL_UNKNOWN_KIND, 0},
    {"class 3", {0x01, 0x03, 0x00}, 3, NGULO_REFUSAL_BAD_DECLARATION, 0},
    {"type 2", {0x01, 0x00, 0x02}, 3, NGULO_REFUSAL_BAD_DECLARATION, 0},
    {"a global after a temporary", {0x01, 0x02, 0x00, 0x01, 0x00, 0x00}, 6, NGULO_REFUSAL_BAD_DECLARATION, 3},
    {"a declaration after an op", {0x01, 0x00, 0x01, 0x03, 0x00, 0x01, 0x00, 0x01}, 8, NGULO_REFUSAL_BAD_DECLARATION, 5},
    {"a variable not declared", {0x01, 0x00, 0x01, 0x04, 0x01}, 5, NGULO_REFUSAL_UNDECLARED, 3},
    {"an exit with 32 bits", {0x01, 0x00, 0x00, 0x04, 0x00}, 5, NGULO_REFUSAL_WRONG_WIDTH, 3},
    {"condition 10", {0x01, 0x00, 0x00, 0x28, 0x00, 0x00, 0x00, 0x0A}, 8, NGULO_REFUSAL_BAD_FIELD, 3},
    {"flag bit 5", {0x01, 0x00, 0x01, 0xAB, 0x00, 0x00, 0x20}, 7, NGULO_REFUSAL_BAD_FIELD, 3},
    {"flag bit 7, beside bit 4", {0x01, 0x00, 0x01, 0xAB, 0x00, 0x00, 0x90}, 7, NGULO_REFUSAL_BAD_FIELD, 3},
    {"an aligned store that sign-extends", {0x01, 0x00, 0x01, 0xAC, 0x00, 0x00, 0x14}, 7, NGULO_REFUSAL_BAD_FIELD, 3},
    {"an aligned access above the width", {0x01, 0x00, 0x00, 0x01, 0x00, 0x01, 0x2B, 0x00, 0x01, 0x13}, 10, NGULO_REFUSAL_BAD_FIELD, 6},
    {"label 128", {0x02, NGULO_MAX_LABELS}, 2, NGULO_REFUSAL_BAD_FIELD, 0},
    {"a 32-bit movi of 2^32", {0x01, 0x00, 0x00, 0x10, 0x00, 0x00, 0x00, 0x00, 0x00, 0x01}, 13, NGULO_REFUSAL_BAD_FIELD, 3},
    {"bswap64 in 32 bits", {0x01, 0x00, 0x00, 0x33, 0x00, 0x00, 0x00}, 7, NGULO_REFUSAL_UNKNOWN_KIND, 3},
    {"a field of no bits", {0x01, 0x00, 0x00, 0x2E, 0x00, 0x00, 0x00, 0x00}, 8, NGULO_REFUSAL_BAD_FIELD, 3},
    {"a field that ends beyond the width", {0x01, 0x00, 0x00, 0x2D, 0x00, 0x00, 0x00, 0x1F, 0x02}, 9, NGULO_REFUSAL_BAD_FIELD, 3},
    {"a position above the width", {0x01, 0x00, 0x01, 0xB0, 0x00, 0x00, 0x00, 0x41}, 8, NGULO_REFUSAL_BAD_FIELD, 3},
    {"a swap with OZ and OS", {0x01, 0x00, 0x00, 0x31, 0x00, 0x00, 0x06}, 7, NGULO_REFUSAL_BAD_FIELD, 3},
    {"a swap of the whole width with IZ", {0x01, 0x00, 0x01, 0xB3, 0x00, 0x00, 0x01}, 7, NGULO_REFUSAL_BAD_FIELD, 3},
    {"a field of a temporary not written", {0x01, 0x02, 0x00, 0x2F, 0x00, 0x00, 0x00, 0x01}, 8, NGULO_REFUSAL_UNWRITTEN, 3},
    {"a label set twice", {0x02, 0x00, 0x02, 0x00}, 4, NGULO_REFUSAL_BAD_LABEL, 2},
    {"a jump to a label already set", {0x02, 0x00, 0x03, 0x00}, 4, NGULO_REFUSAL_BAD_LABEL, 2},
    {"a label never set", {0x01, 0x00, 0x01, 0x03, 0x00, 0x04, 0x00}, 7, NGULO_REFUSAL_BAD_LABEL, 7},
    {"a temporary not written", {0x01, 0x02, 0x01, 0x04, 0x00}, 5, NGULO_REFUSAL_UNWRITTEN, 3},
    {"a temporary past a label", {0x01, 0x02, 0x01, 0x90, 0x00, 0x00, 0x00, 0x00, 0x00, 0x00, 0x00, 0x00, 0x00, 0x02, 0x00, 0x04, 0x00}, 17, NGULO_REFUSAL_UNWRITTEN, 15},
    {"a temporary past a br", {0x01, 0x02, 0x01, 0x90, 0x00, 0x00, 0x00, 0x00, 0x00, 0x00, 0x00, 0x00, 0x00, 0x03, 0x00, 0x04, 0x00}, 17, NGULO_REFUSAL_UNWRITTEN, 15},
    {"a temporary past an exit", {0x01, 0x02, 0x01, 0x90, 0x00, 0x00, 0x00, 0x00, 0x00, 0x00, 0x00, 0x00, 0x00, 0x04, 0x00, 0x04, 0x00}, 17, NGULO_REFUSAL_UNWRITTEN, 15},
    {"no op", {0x01, 0x00, 0x01}, 3, NGULO_REFUSAL_NO_EXIT, 3},
    {"a last op that is no exit", {0x01, 0x00, 0x00, 0x11, 0x00, 0x00}, 6, NGULO_REFUSAL_NO_EXIT, 6}};

/* The three calls answer a refused block alike. */
static void expect_refused(const char *what, const uint8_t *bytes, size_t length, unsigned number, size_t place)
{
    uint64_t answer = ngulo_check(bytes, length);
    uint8_t out = 0xEE;
    uint64_t report[4] = {9, 9, 9, 9};

    expect(what, ngulo_refusal_number(answer), number);
    expect(what, ngulo_refusal_place(answer), place);
    expect(what, ngulo_pass(bytes, length, &out, 1), answer);
    expect(what, out, 0xEE);
    expect(what, ngulo_run_nullable(bytes, length, NULL, 0, NULL, 0, report), answer);
    expect_report(what, report, 9, 9, 9, 9);
}

static void refuses_each(void)
{
    size_t i;

    for (i = 0; i < sizeof refused_blocks / sizeof refused_blocks[0]; i += 1) {
        const struct refused_block *b = &refused_blocks[i];

        expect_refused(b->what, b->bytes, b->length, b->number, b->place);
    }
}

/* This many declarations of a 64-bit global, this many movs, and an exit. */
static size_t fill(uint8_t *bytes, size_t declarations, size_t movs)
{
    size_t i;
    size_t at = 0;

    for (i = 0; i < declarations; i += 1, at += 3) {
        bytes[at] = 0x01;
        bytes[at + 1] = 0x00;
        bytes[at + 2] = 0x01;
    }
    for (i = 0; i < movs; i += 1, at += 3) {
        bytes[at] = 0x91;
        bytes[at + 1] = 0x00;
        bytes[at + 2] = 0x00;
    }
    bytes[at] = 0x04;
    bytes[at + 1] = 0x00;
    return at + 2;
}

/* Case 11: the limits, and one more. */
static void limits(void)
{
    static uint8_t bytes[2 + 3 * (NGULO_MAX_VARIABLES + NGULO_MAX_OPS)];
    static uint8_t memory[NGULO_MAX_MEMORY + 1];
    uint64_t globals[1] = {7};
    uint64_t report[4] = {9, 9, 9, 9};
    size_t length;

    expect("200 variables", ngulo_check(bytes, fill(bytes, 200, 0)), 0);
    length = fill(bytes, 201, 0);
    expect_refused("201 variables", bytes, length, NGULO_REFUSAL_BAD_DECLARATION, 600);
    expect("1,024 ops", ngulo_check(bytes, fill(bytes, 1, 1023)), 0);
    length = fill(bytes, 1, 1024);
    expect_refused("1,025 ops", bytes, length, NGULO_REFUSAL_TOO_MANY_OPS, 3 + 3 * 1024);
    length = fill(bytes, 200, 1023);
    expect("200 variables and 1,024 ops", ngulo_check(bytes, length), 0);
    length = fill(bytes, 1, 0);
    expect("65,537 bytes", ngulo_run(bytes, length, globals, 1, memory, sizeof memory, report), NGULO_REFUSAL_UNFIT_STATE);
    expect_report("65,537 bytes", report, 9, 9, 9, 9);
    expect("65,536 bytes", ngulo_run(bytes, length, globals, 1, memory, NGULO_MAX_MEMORY, report), 0);
    expect_report("65,536 bytes", report, NGULO_ENDING_EXIT, 7, 0, 1);
}

/* The last variable of 200 is global 199; there is none after it. */
static void last_variable(void)
{
    uint8_t bytes[3 * NGULO_MAX_VARIABLES + 2];
    size_t length = fill(bytes, NGULO_MAX_VARIABLES, 0);
    uint64_t globals[NGULO_MAX_VARIABLES + 1];
    uint64_t report[4] = {9, 9, 9, 9};
    uint64_t i;

    for (i = 0; i <= NGULO_MAX_VARIABLES; i += 1) {
        globals[i] = 1000 + i;
    }
    bytes[length - 1] = 199;
    expect("199 of 200 globals", ngulo_run_nullable(bytes, length, globals, 199, NULL, 0, report), NGULO_REFUSAL_UNFIT_STATE);
    expect("201 of 200 globals", ngulo_run_nullable(bytes, length, globals, 201, NULL, 0, report), NGULO_REFUSAL_UNFIT_STATE);
    expect("200 globals", ngulo_run_nullable(bytes, length, globals, 200, NULL, 0, report), 0);
    expect_report("200 globals", report, NGULO_ENDING_EXIT, 1199, 0, 1);
    bytes[length - 1] = 200;
    expect_refused("v200", bytes, length, NGULO_REFUSAL_UNDECLARED, 600);
}

/* A run counts 1,024 ops, and the last position before the exit is 1022. */
static void last_op(void)
{
    static uint8_t bytes[5 + 3 * NGULO_MAX_OPS];
    size_t length = fill(bytes, 1, NGULO_MAX_OPS - 1);
    uint64_t globals[1] = {0};
    uint64_t report[4] = {9, 9, 9, 9};

    expect("1,024 ops: run", ngulo_run_nullable(bytes, length, globals, 1, NULL, 0, report), 0);
    expect_report("1,024 ops", report, NGULO_ENDING_EXIT, 0, 0, 1024);
    length = fill(bytes, 1, NGULO_MAX_OPS - 2);
    memcpy(bytes + length - 2, "\xA2\x00\x00\x00\x04\x00", 6);
    expect("op 1022: run", ngulo_run_nullable(bytes, length + 4, globals, 1, NULL, 0, report), 0);
    expect_report("op 1022", report, NGULO_ENDING_NO_RESULT, 1022, 0, 1022);
}

/* Labels up to 127 can be set and jumped to, and none above. */
static void each_label(void)
{
    size_t label;

    for (label = 0; label < 256; label += 1) {
        uint8_t l = (uint8_t)label;
        uint8_t jumps[] = {0x01, 0x00, 0x01, 0x03, l, 0x02, l, 0x04, 0x00};
        uint8_t branches_there[] = {0x01, 0x00, 0x01, 0xAA, 0x00, 0x00, 0x00, l, 0x02, l, 0x04, 0x00};
        uint64_t answer = label < 128 ? 0 : NGULO_REFUSAL_BAD_FIELD + 256 * 3;

        expect("br to a label", ngulo_check(jumps, sizeof jumps), answer);
        expect("brcond to a label", ngulo_check(branches_there, sizeof branches_there), answer);
        expect("set_label", ngulo_check(jumps + 5, 2), label < 128 ? NGULO_REFUSAL_NO_EXIT + 256 * 2 : NGULO_REFUSAL_BAD_FIELD);
    }
}

/* One block that branches to each and sets each. */
static void all_labels(void)
{
    uint8_t all[3 + 7 * NGULO_MAX_LABELS + 2] = {0x01, 0x00, 0x01};
    uint64_t globals[1] = {5};
    uint64_t report[4] = {9, 9, 9, 9};
    size_t label;

    for (label = 0; label < NGULO_MAX_LABELS; label += 1) {
        uint8_t l = (uint8_t)label;
        uint8_t skips[5] = {0xAA, 0x00, 0x00, NGULO_COND_NE, l};
        uint8_t sets[2] = {0x02, l};

        memcpy(all + 3 + 5 * label, skips, sizeof skips);
        memcpy(all + 3 + 5 * NGULO_MAX_LABELS + 2 * label, sets, sizeof sets);
    }
    all[sizeof all - 2] = NGULO_KIND_EXIT_TB;
    expect("all labels", ngulo_run_nullable(all, sizeof all, globals, 1, NULL, 0, report), 0);
    expect_report("all labels", report, NGULO_ENDING_EXIT, 5, 0, 257);
}

/* 200 globals and this many movis, to one after the other. */
static size_t fill_movis(uint8_t *bytes, size_t movis)
{
    size_t at = fill(bytes, NGULO_MAX_VARIABLES, 0) - 2;
    size_t i;

    for (i = 0; i < movis; i += 1, at += 10) {
        memset(bytes + at, 1, 10);
        bytes[at] = NGULO_KIND_MOVI_I64;
        bytes[at + 1] = (uint8_t)(i % NGULO_MAX_VARIABLES);
    }
    return at;
}

/*
 * The highest place is that of what stands, or is missing, after 200 declarations and 1,024 ops of 10 bytes. The longest
 * block that is accepted has an exit for its last op.
 */
static void longest_block(void)
{
    static uint8_t bytes[NGULO_MAX_RESULT + 3];
    size_t length = fill_movis(bytes, NGULO_MAX_OPS);

    expect("1,024 movis", length, 10840);
    expect("1,024 movis", ngulo_check(bytes, length), 10 + 256 * 10840);
    expect_refused("no exit", bytes, length, NGULO_REFUSAL_NO_EXIT, NGULO_MAX_RESULT);
    bytes[length] = 0x00;
    expect_refused("kind 00 as 1,025th op", bytes, length + 1, NGULO_REFUSAL_UNKNOWN_KIND, NGULO_MAX_RESULT);
    bytes[length] = NGULO_KIND_EXIT_TB;
    bytes[length + 1] = 0;
    expect_refused("a cut 1,025th op", bytes, length + 1, NGULO_REFUSAL_RECORD_CUT, NGULO_MAX_RESULT);
    expect_refused("an exit as 1,025th op", bytes, length + 2, NGULO_REFUSAL_TOO_MANY_OPS, NGULO_MAX_RESULT);
    memcpy(bytes + length, bytes, 3);
    expect_refused("a declaration after all", bytes, length + 3, NGULO_REFUSAL_BAD_DECLARATION, NGULO_MAX_RESULT);
    length = fill_movis(bytes, NGULO_MAX_OPS - 1);
    bytes[length] = NGULO_KIND_EXIT_TB;
    bytes[length + 1] = 0;
    expect("the longest block", length + 2, 10832);
    expect("the longest block", ngulo_check(bytes, length + 2), 0);
}

/*
 * 1,024 ops: five times a constant to each of 200 globals and a store, before which all of them are live, then a constant
 * to 18 globals and an exit. Only the first is a movi if the others are to be copies, which fold to movis.
 */
static size_t fill_live(uint8_t *bytes, int copies)
{
    size_t at = fill_movis(bytes, 1);
    size_t i;

    for (i = 1; i < NGULO_MAX_OPS - 1; i += 1) {
        uint8_t movi[10] = {NGULO_KIND_MOVI_I64, 0, 1, 1, 1, 1, 1, 1, 1, 1};
        uint8_t copy[3] = {NGULO_KIND_MOV_I64, 0, 0};
        uint8_t store[4] = {NGULO_KIND_QEMU_ST_I64, 0, 1, NGULO_SIZE_8};
        const uint8_t *op = i % 201 == 200 ? store : copies ? copy : movi;
        size_t length = i % 201 == 200 ? sizeof store : copies ? sizeof copy : sizeof movi;

        movi[1] = copy[1] = (uint8_t)(i % 201);
        memcpy(bytes + at, op, length);
        at += length;
    }
    bytes[at] = NGULO_KIND_EXIT_TB;
    bytes[at + 1] = 0;
    return at + 2;
}

/* A result of 1,024 ops: as long as its block, or almost three times as long. One byte less has no room. */
static void longest_result(void)
{
    static uint8_t expected[NGULO_MAX_RESULT];
    static uint8_t bytes[NGULO_MAX_RESULT];
    static uint8_t out[NGULO_MAX_RESULT];
    size_t length = fill_live(expected, 0);
    size_t copies = fill_live(bytes, 1);

    expect("movis to live globals", length, 10802);
    expect("movis to live globals: pass", ngulo_pass(expected, length, out, length), 256 * 10802);
    expect("movis to live globals: result", (uint64_t)memcmp(out, expected, length), 0);
    expect("copies to live globals", copies, 10802 - 7 * 1017);
    memset(out, 0xEE, sizeof out);
    expect("no room for the copies", ngulo_pass(bytes, copies, out, 10801), NGULO_REFUSAL_NO_ROOM);
    expect("no room for the copies: out", out[0] == 0xEE && memcmp(out, out + 1, sizeof out - 1) == 0, 1);
    expect("room for the copies", ngulo_pass(bytes, copies, out, ngulo_result_bound(copies)), 256 * 10802);
    expect("room for the copies: result", (uint64_t)memcmp(out, expected, length), 0);
    expect("room for the copies: byte after it", out[length], 0xEE);
    expect("no room in place", ngulo_pass_in_place(bytes, copies, 10801), NGULO_REFUSAL_NO_ROOM);
    expect("room in place", ngulo_pass_in_place(bytes, copies, 10802), 256 * 10802);
    expect("room in place: result", (uint64_t)memcmp(bytes, expected, length), 0);
}

/* So many globals, the first given a constant and every other one a copy of it; an exit. */
static size_t fill_known(uint8_t *bytes, size_t globals)
{
    size_t i;
    size_t at = fill(bytes, globals, 0) - 2;

    memset(bytes + at, 0, 10);
    bytes[at] = NGULO_KIND_MOVI_I64;
    at += 10;
    for (i = 1; i < globals; i += 1, at += 3) {
        bytes[at] = NGULO_KIND_MOV_I64;
        bytes[at + 1] = (uint8_t)i;
        bytes[at + 2] = 0;
    }
    bytes[at] = NGULO_KIND_EXIT_TB;
    bytes[at + 1] = 0;
    return at + 2;
}

/* Each copy becomes a constant, 7 bytes longer, and the bound has room for all. */
static void bounded(void)
{
    uint8_t bytes[6 * NGULO_MAX_VARIABLES + 12];
    uint8_t out[NGULO_MAX_RESULT];
    size_t globals;

    for (globals = 1; globals <= NGULO_MAX_VARIABLES; globals += 1) {
        size_t length = fill_known(bytes, globals);
        uint64_t answer = ngulo_pass(bytes, length, out, ngulo_result_bound(length));

        expect("copies of a constant", answer, 256 * (length + 7 * (globals - 1)));
    }
}

/* Any pointer will do where the length is 0. */
static void lends_nothing(void)
{
    static const uint8_t no_globals[] = {0x01, 0x02, 0x01, 0x90, 0x00, 0x2A, 0x00, 0x00, 0x00, 0x00, 0x00, 0x00, 0x00, 0x04, 0x00};
    uint64_t report[4] = {9, 9, 9, 9};
    uint8_t out[64];

    expect("check of NULL", ngulo_check_nullable(NULL, 0), NGULO_REFUSAL_NO_EXIT);
    expect("check of bytes", ngulo_check_nullable(case12, sizeof case12), 0);
    expect("pass of NULL", ngulo_pass_nullable(NULL, 0, NULL, 0), NGULO_REFUSAL_NO_EXIT);
    expect("pass into NULL", ngulo_pass_nullable(case12, sizeof case12, NULL, 0), NGULO_REFUSAL_NO_ROOM);
    expect("pass into bytes", ngulo_pass_nullable(case12, sizeof case12, out, sizeof out), 256 * sizeof case12_out);
    expect("pass into bytes", (uint64_t)memcmp(out, case12_out, sizeof case12_out), 0);
    expect("run of NULL", ngulo_run_nullable(NULL, 0, NULL, 0, NULL, 0, report), NGULO_REFUSAL_NO_EXIT);
    expect_report("run of NULL", report, 9, 9, 9, 9);
    expect("run on NULL", ngulo_run_nullable(no_globals, sizeof no_globals, NULL, 0, NULL, 0, report), 0);
    expect_report("run on NULL", report, NGULO_ENDING_EXIT, 42, 0, 2);
}

/* Globals and memory are written through the nullable call too. */
static void lends_all(void)
{
    uint64_t globals[2] = {4, 1};
    uint64_t report[4] = {9, 9, 9, 9};
    uint8_t memory[8] = {0};

    expect("a store", ngulo_run_nullable(faulting, sizeof faulting, globals, 2, memory, sizeof memory, report), 0);
    expect_report("a store", report, NGULO_ENDING_EXIT, 4, 0, 3);
    expect("a store: global 1", globals[1], 5);
    expect("a store: memory", memory[4], 5);
}

/* The number that a word holds, read as signed. */
static int64_t read_signed(uint64_t value, int wide)
{
    int64_t read;

    if (!wide && value >= UINT64_C(0x80000000)) {
        value -= UINT64_C(0x100000000);
    }
    memcpy(&read, &value, sizeof read);
    return read;
}

static uint64_t holds(uint8_t cond, uint64_t a, uint64_t b, int wide)
{
    int64_t x = read_signed(a, wide);
    int64_t y = read_signed(b, wide);

    switch (cond) {
    case NGULO_COND_EQ: return a == b;
    case NGULO_COND_NE: return a != b;
    case NGULO_COND_LT: return x < y;
    case NGULO_COND_GE: return x >= y;
    case NGULO_COND_LE: return x <= y;
    case NGULO_COND_GT: return x > y;
    case NGULO_COND_LTU: return a < b;
    case NGULO_COND_GEU: return a >= b;
    case NGULO_COND_LEU: return a <= b;
    default: return a > b;
    }
}

/* Of v1 and v2: v3 by setcond; v4, which is 1 before, by a brcond over an op that clears it. */
static void decides(uint8_t cond, uint64_t a, uint64_t b, int wide)
{
    uint8_t type = wide ? NGULO_TYPE_I64 : NGULO_TYPE_I32;
    uint8_t width = wide ? NGULO_KIND_WIDE : 0;
    uint8_t block[] = {0x01, 0, 1, 0x01, 0, 0, 0x01, 0, 0, 0x01, 0, 0, 0x01, 0, 0, 0x28, 3, 1, 2, 0, 0x2A, 1, 2, 0, 0, 0x15, 4, 4, 4, 0x02, 0, 0x04, 0};
    uint64_t globals[5] = {7, 0, 0, 9, 1};
    uint64_t report[4] = {9, 9, 9, 9};
    uint64_t answer = holds(cond, a, b, wide);

    block[5] = block[8] = block[11] = block[14] = type;
    block[15] |= width;
    block[20] |= width;
    block[25] |= width;
    block[19] = block[23] = cond;
    globals[1] = a;
    globals[2] = b;
    expect("a condition: run", ngulo_run_nullable(block, sizeof block, globals, 5, NULL, 0, report), 0);
    expect_report("a condition", report, NGULO_ENDING_EXIT, 7, 0, 5 - answer);
    expect("a condition: setcond", globals[3], answer);
    expect("a condition: brcond", globals[4], answer);
}

/* Every condition of any two of: zero, one, both sides of the top bit, and all ones. */
static void conditions(void)
{
    static const uint64_t corners[2][6] = {{0, 1, 0x7FFFFFFF, 0x80000000, 0x80000001, 0xFFFFFFFF},
                                           {0, 1, UINT64_C(0x7FFFFFFFFFFFFFFF), UINT64_C(0x8000000000000000), UINT64_C(0x8000000000000001), UINT64_MAX}};
    int wide;
    size_t i;
    uint8_t cond;

    for (wide = 0; wide < 2; wide += 1) {
        for (i = 0; i < 36; i += 1) {
            for (cond = NGULO_COND_EQ; cond <= NGULO_COND_GTU; cond += 1) {
                decides(cond, corners[wide][i / 6], corners[wide][i % 6], wide);
            }
        }
    }
}

/* A load into v1, or a store of it, at the address in v0. */
struct access {
    int wide;
    int store;
    unsigned flags;
};

enum { ACCESS_MEMORY = 19, ACCESS_BLOCK = 32 };

/* Op 0 writes a temporary that nothing reads; op 1 is the access. */
static size_t fill_access(uint8_t *block, const struct access *access)
{
    static const uint8_t bytes[] = {0x01, 0x00, 0x01, 0x01, 0x00, 0x00, 0x01, 0x02, 0x01, 0x91, 0x02, 0x00, 0x2B, 0x01, 0x00, 0x00, 0x04, 0x00};

    memcpy(block, bytes, sizeof bytes);
    block[5] = access->wide ? NGULO_TYPE_I64 : NGULO_TYPE_I32;
    block[12] = (uint8_t)(access->store ? NGULO_KIND_QEMU_ST_I32 : NGULO_KIND_QEMU_LD_I32);
    block[12] = (uint8_t)(block[12] + (access->wide ? NGULO_KIND_WIDE : 0));
    block[15] = (uint8_t)access->flags;
    return sizeof bytes;
}

/* How the access ended, what the globals hold then, and the memory. */
struct accessed {
    uint64_t report[4];
    uint64_t globals[2];
    uint8_t memory[ACCESS_MEMORY];
};

/* The globals and the memory before. */
static void start_access(uint64_t address, struct accessed *into)
{
    size_t i;

    memset(into, 0, sizeof *into);
    into->globals[0] = address;
    into->globals[1] = 0x89ABCDEF;
    for (i = 0; i < ACCESS_MEMORY; i += 1) {
        into->memory[i] = (uint8_t)(0xF0 - 7 * i);
    }
}

static void run_access(const uint8_t *block, size_t length, uint64_t address, size_t memory_length, struct accessed *into)
{
    start_access(address, into);
    expect("an access: run", ngulo_run(block, length, into->globals, 2, into->memory, memory_length, into->report), 0);
}

static void expect_state(const char *what, const struct accessed *found, const struct accessed *expected)
{
    expect(what, (uint64_t)memcmp(found->globals, expected->globals, sizeof found->globals), 0);
    expect(what, (uint64_t)memcmp(found->memory, expected->memory, sizeof found->memory), 0);
}

/* The pass drops op 0; what is left ends alike, a fault also by its reason. */
static void expect_optimised(const uint8_t *block, size_t length, size_t memory_length, const struct accessed *found)
{
    uint8_t out[ACCESS_BLOCK];
    struct accessed result;
    uint64_t address = found->globals[0];

    expect("an access: pass", ngulo_pass(block, length, out, sizeof out), 256 * (length - 3));
    run_access(out, length - 3, address, memory_length, &result);
    expect_report("an optimised access", result.report, found->report[0], found->report[1], found->report[2], found->report[3] - 1);
    expect_state("an optimised access: state", &result, found);
}

/* Where the address is a multiple of the size, bit 4 changes nothing but the flags reported. */
static void expect_without_bit(const struct access *access, size_t memory_length, const struct accessed *found)
{
    struct access other = *access;
    uint8_t block[ACCESS_BLOCK];
    struct accessed without;
    int faults = found->report[0] == NGULO_ENDING_FAULT;

    other.flags &= ~(unsigned)NGULO_FLAG_ALIGNED;
    run_access(block, fill_access(block, &other), found->globals[0], memory_length, &without);
    expect_report("without bit 4", without.report, found->report[0], found->report[1],
                  found->report[2] - (faults ? access->flags - other.flags : 0), found->report[3]);
    expect_state("without bit 4: state", &without, found);
}

/* What an access that is served does to the globals and the memory. */
static void serve(const struct access *access, struct accessed *state)
{
    unsigned size = 1u << (access->flags & NGULO_FLAG_SIZE);
    uint8_t *bytes = state->memory + state->globals[0];
    uint64_t value = 0;
    unsigned i;

    for (i = 0; i < size; i += 1) {
        unsigned shift = 8 * (access->flags & NGULO_FLAG_BIG_ENDIAN ? size - 1 - i : i);

        if (access->store) {
            bytes[i] = (uint8_t)(state->globals[1] >> shift);
        }
        value |= (uint64_t)bytes[i] << shift;
    }
    if (access->store) {
        return;
    }
    if ((access->flags & NGULO_FLAG_SIGNED) && value >> (8 * size - 1)) {
        value |= ~(UINT64_MAX >> (64 - 8 * size));
    }
    state->globals[1] = access->wide ? value : value & UINT32_MAX;
}

/* The access at an address of a memory of this length. */
static void accesses_at(const struct access *access, uint64_t address, size_t memory_length)
{
    unsigned size = 1u << (access->flags & NGULO_FLAG_SIZE);
    int asked = (access->flags & NGULO_FLAG_ALIGNED) != 0;
    int misaligned = asked && address % size != 0;
    int past = memory_length < size || address > memory_length - size;
    uint8_t block[ACCESS_BLOCK];
    size_t length = fill_access(block, access);
    struct accessed expected;
    struct accessed found;

    start_access(address, &expected);
    run_access(block, length, address, memory_length, &found);
    if (misaligned || past) {
        expect_report("an access that faults", found.report, NGULO_ENDING_FAULT, address,
                      access->flags + (access->store ? 256u : 0u) + (misaligned ? 65536u : 0u), 2);
    } else {
        expect_report("an access that is served", found.report, NGULO_ENDING_EXIT, address, 0, 3);
        serve(access, &expected);
    }
    expect_state("what an access leaves", &found, &expected);
    expect_optimised(block, length, memory_length, &found);
    if (asked && !misaligned) {
        expect_without_bit(access, memory_length, &found);
    }
}

/* Every address of memories of so few bytes, and some past them; the last addresses there are. */
static void accesses_with(const struct access *access)
{
    size_t memory_length;
    uint64_t i;

    for (memory_length = 0; memory_length < ACCESS_MEMORY; memory_length += 1) {
        for (i = 0; i < ACCESS_MEMORY + 9; i += 1) {
            accesses_at(access, i, memory_length);
        }
        for (i = 0; i < 17; i += 1) {
            accesses_at(access, UINT64_MAX - i, memory_length);
        }
        accesses_at(access, UINT64_C(0x8000000000000000), memory_length);
        accesses_at(access, UINT64_C(0x8000000000000001), memory_length);
    }
}

/* Which of all flags are accepted; and what each such access does. */
static void accesses(void)
{
    unsigned i;

    for (i = 0; i < 4 * 256; i += 1) {
        struct access access;
        uint8_t block[ACCESS_BLOCK];
        int accepted;

        access.wide = (i / 256) % 2 == 1;
        access.store = i / 512 == 1;
        access.flags = i % 256;
        accepted = access.flags < 0x20 && (access.wide || access.flags % 4 != 3) && !(access.store && access.flags / 4 % 2 == 1);
        expect("the flags of an access", ngulo_check(block, fill_access(block, &access)),
               accepted ? 0 : NGULO_REFUSAL_BAD_FIELD + 256 * 12);
        if (accepted) {
            accesses_with(&access);
        }
    }
}

/* A pure op on v1 and its inputs v2 and v3, at most two bytes after them. */
struct pure_op {
    const char *what;
    uint8_t kind;
    unsigned inputs;
    uint8_t after[2];
    size_t after_length;
};

static unsigned width_of(const struct pure_op *op)
{
    return op->kind >= NGULO_KIND_WIDE ? 64 : 32;
}

static size_t add_movi(uint8_t *block, size_t at, const struct pure_op *op, uint8_t variable, uint64_t value)
{
    size_t i;

    block[at] = width_of(op) == 64 ? NGULO_KIND_MOVI_I64 : NGULO_KIND_MOVI_I32;
    block[at + 1] = variable;
    for (i = 0; i < 8; i += 1) {
        block[at + 2 + i] = (uint8_t)(value >> 8 * i);
    }
    return at + 10;
}

static size_t add_op(uint8_t *block, size_t at, const struct pure_op *op)
{
    size_t k;

    block[at] = op->kind;
    for (k = 1; k <= 1 + op->inputs; k += 1) {
        block[at + k] = (uint8_t)k;
    }
    memcpy(block + at + k, op->after, op->after_length);
    return at + k + op->after_length;
}

static size_t add_exit(uint8_t *block, size_t at)
{
    block[at] = NGULO_KIND_EXIT_TB;
    block[at + 1] = 0;
    return at + 2;
}

/* Four globals: v0 for the exit, and three of the op's width. */
static size_t add_globals(uint8_t *block, const struct pure_op *op)
{
    size_t at;

    for (at = 0; at < 12; at += 3) {
        block[at] = NGULO_KIND_DECL;
        block[at + 1] = NGULO_CLASS_GLOBAL;
        block[at + 2] = at == 0 || width_of(op) == 64 ? NGULO_TYPE_I64 : NGULO_TYPE_I32;
    }
    return at;
}

enum { PURE_SIZE = 64 };

/* The op is run: it gives this, or has no stated result. */
static void expect_run(const struct pure_op *op, uint64_t a, uint64_t b, int stated, uint64_t expected)
{
    uint8_t block[PURE_SIZE];
    size_t length = add_exit(block, add_op(block, add_globals(block, op), op));
    uint64_t globals[4] = {7, 9, 0, 0};
    uint64_t report[4] = {9, 9, 9, 9};

    globals[2] = a;
    globals[3] = b;
    expect(op->what, ngulo_run_nullable(block, length, globals, 4, NULL, 0, report), 0);
    if (stated) {
        expect_report(op->what, report, NGULO_ENDING_EXIT, 7, 0, 2);
    } else {
        expect_report(op->what, report, NGULO_ENDING_NO_RESULT, 0, 0, 0);
    }
    expect(op->what, globals[1], stated ? expected : 9);
}

/* The op on known inputs becomes a movi of what it gives, or stays if no result is stated. */
static void expect_fold(const struct pure_op *op, uint64_t a, uint64_t b, int stated, uint64_t expected)
{
    uint8_t block[PURE_SIZE];
    uint8_t folded[PURE_SIZE];
    uint8_t out[PURE_SIZE];
    size_t at = add_movi(block, add_movi(block, add_globals(block, op), op, 2, a), op, 3, b);
    size_t length = add_exit(block, add_op(block, at, op));
    size_t folded_length;

    memcpy(folded, block, at);
    folded_length = add_exit(folded, stated ? add_movi(folded, at, op, 1, expected) : add_op(folded, at, op));
    expect(op->what, ngulo_pass(block, length, out, sizeof out), 256 * folded_length);
    expect(op->what, (uint64_t)memcmp(out, folded, folded_length), 0);
}

static void expect_value(const struct pure_op *op, uint64_t a, uint64_t b, int stated, uint64_t expected)
{
    expect_run(op, a, b, stated, expected);
    expect_fold(op, a, b, stated, expected);
}

/* With these bytes after its inputs the op is accepted, or refused by 6. */
static int expect_field(const struct pure_op *op, int accepted)
{
    uint8_t block[PURE_SIZE];
    size_t length = add_exit(block, add_op(block, add_globals(block, op), op));

    expect(op->what, ngulo_check(block, length), accepted ? 0 : NGULO_REFUSAL_BAD_FIELD + 256 * 12);
    return accepted;
}

static unsigned bit(uint64_t value, unsigned place)
{
    return (unsigned)(value >> place & 1);
}

/* What a bit of the result is, of a field or a swap. */
static unsigned result_bit(const struct pure_op *op, uint64_t a, uint64_t b, unsigned i)
{
    unsigned pos = op->after[0];
    unsigned len = op->after[1];
    unsigned bytes;

    switch (op->kind & ~NGULO_KIND_WIDE) {
    case NGULO_KIND_DEPOSIT_I32:
        return i >= pos && i < pos + len ? bit(b, i - pos) : bit(a, i);
    case NGULO_KIND_EXTRACT_I32:
        return i < len ? bit(a, pos + i) : 0;
    case NGULO_KIND_SEXTRACT_I32:
        return bit(a, pos + (i < len ? i : len - 1));
    case NGULO_KIND_EXTRACT2_I32:
        return pos + i < width_of(op) ? bit(a, pos + i) : bit(b, pos + i - width_of(op));
    default:
        bytes = 2u << ((op->kind & ~NGULO_KIND_WIDE) - NGULO_KIND_BSWAP16_I32);
        return i < 8 * bytes ? bit(a, 8 * (bytes - 1 - i / 8) + i % 8) : op->after[0] & NGULO_BSWAP_OS ? bit(a, 7) : 0;
    }
}

static uint64_t result_of(const struct pure_op *op, uint64_t a, uint64_t b)
{
    uint64_t result = 0;
    unsigned i;

    for (i = 0; i < width_of(op); i += 1) {
        result |= (uint64_t)result_bit(op, a, b, i) << i;
    }
    return result;
}

/* Every position and length, of 256 each; where they are good, on two pairs of values. */
static void fields(struct pure_op op)
{
    uint64_t all = width_of(&op) == 64 ? UINT64_MAX : UINT32_MAX;
    unsigned i;

    for (i = 0; i < 65536; i += 1) {
        op.after[0] = (uint8_t)(i / 256);
        op.after[1] = (uint8_t)(i % 256);
        if (expect_field(&op, i % 256 >= 1 && i / 256 + i % 256 <= width_of(&op))) {
            uint64_t a = UINT64_C(0x8123456789ABCDEF) & all;
            uint64_t b = UINT64_C(0x5AA5F00F9669C33C) & all;

            expect_value(&op, a, b, 1, result_of(&op, a, b));
            expect_value(&op, all, 0, 1, result_of(&op, all, 0));
        }
    }
}

static void positions(struct pure_op op)
{
    uint64_t all = width_of(&op) == 64 ? UINT64_MAX : UINT32_MAX;
    unsigned pos;

    for (pos = 0; pos < 256; pos += 1) {
        op.after[0] = (uint8_t)pos;
        if (expect_field(&op, pos <= width_of(&op))) {
            uint64_t a = UINT64_C(0x8123456789ABCDEF) & all;

            expect_value(&op, a, all - a, 1, result_of(&op, a, all - a));
        }
    }
}

/* A swap of so many bits: all flags, on inputs that are zero-extended from there and others. */
static void swaps(struct pure_op op, unsigned bits)
{
    static const uint64_t inputs[] = {0, 0x80, 0x8000, 0x1234, 0xFFFF, 0x10000, 0x12345678, 0xFFFFFFFF, UINT64_C(0x100000000),
                                      UINT64_C(0x8123456789ABCDEF), UINT64_MAX};
    unsigned whole = bits == width_of(&op);
    unsigned flags;
    size_t k;

    for (flags = 0; flags < 256; flags += 1) {
        op.after[0] = (uint8_t)flags;
        if (!expect_field(&op, whole ? flags == 0 : flags >= NGULO_BSWAP_OZ && flags <= NGULO_BSWAP_OS + NGULO_BSWAP_IZ)) {
            continue;
        }
        for (k = 0; k < sizeof inputs / sizeof inputs[0]; k += 1) {
            uint64_t a = width_of(&op) == 64 ? inputs[k] : inputs[k] & UINT32_MAX;

            expect_value(&op, a, 0, !(flags & NGULO_BSWAP_IZ) || a >> bits == 0, result_of(&op, a, 0));
        }
    }
}

static uint64_t count_of(const struct pure_op *op, uint64_t a, uint64_t b)
{
    unsigned ones = 0;
    unsigned highest = 0;
    unsigned lowest = 0;
    unsigned i;

    for (i = 0; i < width_of(op); i += 1) {
        lowest = bit(a, i) && ones == 0 ? i : lowest;
        highest = bit(a, i) ? i : highest;
        ones += bit(a, i);
    }
    switch (op->kind & ~NGULO_KIND_WIDE) {
    case NGULO_KIND_CLZ_I32: return a == 0 ? b : width_of(op) - 1 - highest;
    case NGULO_KIND_CTZ_I32: return a == 0 ? b : lowest;
    default: return ones;
    }
}

/* Zero, every bit alone, and every bit with those below it. */
static void counts(const struct pure_op *op)
{
    unsigned i;

    expect_value(op, 0, 77, 1, count_of(op, 0, 77));
    for (i = 0; i < width_of(op); i += 1) {
        uint64_t alone = (uint64_t)1 << i;

        expect_value(op, alone, 77, 1, count_of(op, alone, 77));
        expect_value(op, alone + (alone - 1), 77, 1, count_of(op, alone + (alone - 1), 77));
    }
}

/* Of two inputs the first is known: the op stays, also where the second would not matter. */
static void stays_half_known(const struct pure_op *op)
{
    uint8_t block[PURE_SIZE];
    uint8_t out[PURE_SIZE];
    size_t length = add_exit(block, add_op(block, add_movi(block, add_globals(block, op), op, 2, 1), op));

    expect(op->what, ngulo_pass(block, length, out, sizeof out), 256 * length);
    expect(op->what, (uint64_t)memcmp(out, block, length), 0);
}

/* The next op writes its output, so it goes. */
static void dropped_if_dead(const struct pure_op *op)
{
    uint8_t block[PURE_SIZE];
    uint8_t left[PURE_SIZE];
    uint8_t out[PURE_SIZE];
    size_t at = add_globals(block, op);
    size_t length = add_exit(block, add_movi(block, add_op(block, at, op), op, 1, 5));
    size_t left_length = add_exit(left, add_movi(left, add_globals(left, op), op, 1, 5));

    expect(op->what, ngulo_pass(block, length, out, sizeof out), 256 * left_length);
    expect(op->what, (uint64_t)memcmp(out, left, left_length), 0);
}

static void bits(void)
{
    static const struct pure_op ops[] = {
        {"deposit", NGULO_KIND_DEPOSIT_I32, 2, {1, 2}, 2},   {"extract", NGULO_KIND_EXTRACT_I32, 1, {1, 2}, 2},
        {"sextract", NGULO_KIND_SEXTRACT_I32, 1, {1, 2}, 2}, {"extract2", NGULO_KIND_EXTRACT2_I32, 2, {0, 0}, 1},
        {"bswap16", NGULO_KIND_BSWAP16_I32, 1, {2, 0}, 1},   {"bswap32", NGULO_KIND_BSWAP32_I32, 1, {0, 0}, 1},
        {"clz", NGULO_KIND_CLZ_I32, 2, {0, 0}, 0},           {"ctz", NGULO_KIND_CTZ_I32, 2, {0, 0}, 0},
        {"ctpop", NGULO_KIND_CTPOP_I32, 1, {0, 0}, 0}};
    static const struct pure_op bswap64 = {"bswap64", NGULO_KIND_BSWAP64_I64, 1, {0, 0}, 1};
    size_t i;

    for (i = 0; i < 18; i += 1) {
        struct pure_op op = ops[i / 2];

        op.kind = (uint8_t)(op.kind + i % 2 * NGULO_KIND_WIDE);
        if (op.kind == NGULO_KIND_BSWAP32_I64) {
            op.after[0] = NGULO_BSWAP_OS;
        }
        dropped_if_dead(&op);
        if (op.inputs == 2) {
            stays_half_known(&op);
        }
        if (op.after_length == 2) {
            fields(op);
        } else if (op.after_length == 0) {
            counts(&op);
        } else if (op.inputs == 2) {
            positions(op);
        } else {
            swaps(op, ops[i / 2].kind == NGULO_KIND_BSWAP16_I32 ? 16 : 32);
        }
    }
    dropped_if_dead(&bswap64);
    swaps(bswap64, 64);
}

int main(void)
{
    expect("version", ngulo_version(), NGULO_VERSION_NUMBER);
    optimises();
    optimises_in_place();
    grows_in_place();
    bounded();
    runs();
    stops();
    branches();
    refuses();
    refuses_each();
    limits();
    last_variable();
    last_op();
    each_label();
    all_labels();
    longest_block();
    longest_result();
    lends_nothing();
    lends_all();
    conditions();
    accesses();
    bits();
    if (failures == 0) {
        puts("calls from C: as they should be");
    }
    return failures != 0;
}
