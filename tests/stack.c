/*
 * The stack that each call takes, on blocks of 1,024 ops and 200 variables. Usage: stack BYTES IN_PLACE, the numbers that
 * no call reaches, and that ngulo_pass_in_place does not reach. Answers 0 if they hold. Not for valgrind, which does not
 * let a stack be read that is left.
 */
#define _XOPEN_SOURCE 700

#include "ngulo.h"

#include <stdio.h>
#include <stdlib.h>
#include <string.h>
#include <ucontext.h>

enum { STACK = 65536, UNTOUCHED = 0x5A };

static uint8_t block[NGULO_MAX_RESULT];
static size_t length;
static uint8_t out[NGULO_MAX_RESULT];
static uint64_t globals[NGULO_MAX_VARIABLES];
static uint8_t memory[16];
static uint64_t report[NGULO_REPORT_LENGTH];

static union {
    uint64_t aligned;
    uint8_t bytes[STACK];
} stack;

static ucontext_t here;
static ucontext_t there;
static uint64_t answer;

/* Ops on v0, by their kinds and the bytes after the output. Where all is known they fold, but for the load and the store. */
static const struct op {
    uint8_t length;
    uint8_t bytes[7];
} ops[] = {
    {4, {NGULO_KIND_ADD_I64}},
    {4, {NGULO_KIND_MUL_I64}},
    {4, {NGULO_KIND_DIVS_I64}},
    {4, {NGULO_KIND_REMU_I64}},
    {4, {NGULO_KIND_SAR_I64}},
    {4, {NGULO_KIND_ROTR_I64}},
    {5, {NGULO_KIND_SETCOND_I64, 0, 0, 0, NGULO_COND_LT}},
    {7, {NGULO_KIND_MOVCOND_I64, 0, 0, 0, 0, 0, NGULO_COND_GT}},
    {6, {NGULO_KIND_DEPOSIT_I64, 0, 0, 0, 8, 4}},
    {5, {NGULO_KIND_SEXTRACT_I64, 0, 0, 8, 4}},
    {5, {NGULO_KIND_EXTRACT2_I64, 0, 0, 0, 8}},
    {4, {NGULO_KIND_BSWAP64_I64, 0, 0, 0}},
    {4, {NGULO_KIND_CLZ_I64}},
    {3, {NGULO_KIND_CTPOP_I64}},
    {4, {NGULO_KIND_QEMU_LD_I64, 0, 0, 0}},
    {4, {NGULO_KIND_QEMU_ST_I64, 0, 0, 0}},
};

enum { OPS = sizeof ops / sizeof ops[0] };

/* 200 globals, a constant, and as many of the ops as there may be. */
static void make_block(void)
{
    static const uint8_t movi[10] = {NGULO_KIND_MOVI_I64, 0, 3, 0, 0, 0, 0, 0, 0, 0};
    static const uint8_t leave[2] = {NGULO_KIND_EXIT_TB, 0};
    unsigned i;

    for (i = 0; i < NGULO_MAX_VARIABLES; i += 1, length += 3) {
        block[length] = NGULO_KIND_DECL;
        block[length + 2] = NGULO_TYPE_I64;
    }
    memcpy(block + length, movi, sizeof movi);
    length += sizeof movi;
    for (i = 0; i < NGULO_MAX_OPS - 2; i += 1) {
        const struct op *op = &ops[i % OPS];

        memcpy(block + length, op->bytes, op->length);
        block[length + 1] = (uint8_t)(1 + i % (NGULO_MAX_VARIABLES - 1));
        length += op->length;
    }
    memcpy(block + length, leave, sizeof leave);
    length += sizeof leave;
}

static void nothing(void)
{
    answer = 0;
}

static void check(void)
{
    answer = ngulo_check(block, length);
}

static void pass(void)
{
    answer = ngulo_pass(block, length, out, sizeof out);
}

static void run(void)
{
    answer = ngulo_run(block, length, globals, NGULO_MAX_VARIABLES, memory, sizeof memory, report);
}

static void pass_in_place(void)
{
    memcpy(out, block, length);
    answer = ngulo_pass_in_place(out, length, sizeof out);
}

/* The bytes of a stack that a call has touched. */
static size_t touched(void (*call)(void))
{
    size_t i = 0;

    memset(stack.bytes, UNTOUCHED, sizeof stack.bytes);
    getcontext(&there);
    there.uc_stack.ss_sp = stack.bytes;
    there.uc_stack.ss_size = sizeof stack.bytes;
    there.uc_link = &here;
    makecontext(&there, call, 0);
    swapcontext(&here, &there);
    while (i < sizeof stack.bytes && stack.bytes[i] == UNTOUCHED) {
        i += 1;
    }
    return sizeof stack.bytes - i;
}

/* 1 if a call is not refused and takes less than this, but some. It is made once before, so that the program has found
   all it needs. */
static int holds(const char *name, void (*call)(void), const char *most)
{
    size_t least = touched(nothing);
    size_t bytes;

    touched(call);
    bytes = touched(call) - least;
    printf("stack: %s takes %lu bytes\n", name, (unsigned long)bytes);
    return !ngulo_is_refused(answer) && bytes > 0 && bytes < strtoul(most, NULL, 10);
}

int main(int count, char **words)
{
    int good = count == 3;

    make_block();
    good = good && holds("ngulo_check", check, words[1]);
    good = good && holds("ngulo_pass", pass, words[1]);
    good = good && holds("ngulo_run", run, words[1]);
    good = good && holds("ngulo_pass_in_place", pass_in_place, words[2]);
    return !good;
}
