/*
 * The header by itself, as C and as C++: its constants, answers and reports taken apart, and what the nullable calls and
 * the pass in place pass on. The library's calls are stood in for here.
 */
#include "ngulo.h"
#include "ngulo.h"

#include <stdio.h>
#include <string.h>

/* The limits can be asked before the program is compiled. */
#if NGULO_MAX_RESULT / 2 != 5420 || 2 * NGULO_MAX_RESULT != 21680
#error "NGULO_MAX_RESULT is not one number"
#endif

static int failures;

static void expect(const char *what, uint64_t found, uint64_t expected)
{
    if (found != expected) {
        printf("%s: found %llx, expected %llx\n", what, (unsigned long long)found, (unsigned long long)expected);
        failures += 1;
    }
}

static void constants(void)
{
    static const int refusals[] = {NGULO_REFUSAL_NONE, NGULO_REFUSAL_RECORD_CUT, NGULO_REFUSAL_UNKNOWN_KIND,
                                   NGULO_REFUSAL_BAD_DECLARATION, NGULO_REFUSAL_UNDECLARED, NGULO_REFUSAL_WRONG_WIDTH,
                                   NGULO_REFUSAL_BAD_FIELD, NGULO_REFUSAL_BAD_LABEL, NGULO_REFUSAL_UNWRITTEN,
                                   NGULO_REFUSAL_TOO_MANY_OPS, NGULO_REFUSAL_NO_EXIT, NGULO_REFUSAL_UNFIT_STATE,
                                   NGULO_REFUSAL_NO_ROOM};
    uint64_t i;

    expect("number of refusals", sizeof refusals / sizeof refusals[0], 13);
    for (i = 0; i < sizeof refusals / sizeof refusals[0]; i += 1) {
        expect("refusal", (uint64_t)refusals[i], i);
    }
    expect("variables", NGULO_MAX_VARIABLES, 200);
    expect("ops", NGULO_MAX_OPS, 1024);
    expect("labels", NGULO_MAX_LABELS, 128);
    expect("memory", NGULO_MAX_MEMORY, 65536);
    expect("result", NGULO_MAX_RESULT, 10840);
    expect("exit", NGULO_ENDING_EXIT, 1);
    expect("fault", NGULO_ENDING_FAULT, 2);
    expect("no result", NGULO_ENDING_NO_RESULT, 3);
    expect("report: ending", NGULO_REPORT_ENDING, 0);
    expect("report: detail", NGULO_REPORT_DETAIL, 1);
    expect("report: access", NGULO_REPORT_ACCESS, 2);
    expect("report: count", NGULO_REPORT_COUNT, 3);
    expect("report", NGULO_REPORT_LENGTH, 4);
    expect("sizes", NGULO_SIZE_1 + NGULO_SIZE_2 + NGULO_SIZE_4 + NGULO_SIZE_8, 0 + 1 + 2 + 3);
    expect("a store's more", NGULO_ACCESS_STORE, 256);
    expect("a reason's more", NGULO_ACCESS_REASON, 65536);
    expect("bounds", NGULO_FAULT_BOUNDS, 0);
    expect("alignment", NGULO_FAULT_ALIGNMENT, 1);
}

/* The numbers of kinds are compared one by one elsewhere, with docs/FORMAT.md. */
static void numbers(void)
{
    expect("first kind", NGULO_KIND_DECL, 0x01);
    expect("first op by width", NGULO_KIND_MOVI_I32, 0x10);
    expect("last op by width", NGULO_KIND_CTPOP_I32, 0x36);
    expect("first wide op", NGULO_KIND_MOVI_I64, NGULO_KIND_MOVI_I32 + NGULO_KIND_WIDE);
    expect("last wide op", NGULO_KIND_CTPOP_I64, NGULO_KIND_CTPOP_I32 + NGULO_KIND_WIDE);
    expect("wide op without a narrow one", NGULO_KIND_BSWAP64_I64, 0xB3);
    expect("global", NGULO_CLASS_GLOBAL, 0);
    expect("local temporary", NGULO_CLASS_LOCAL, 1);
    expect("temporary", NGULO_CLASS_TEMPORARY, 2);
    expect("32 bits", NGULO_TYPE_I32, 0);
    expect("64 bits", NGULO_TYPE_I64, 1);
    expect("first condition", NGULO_COND_EQ, 0);
    expect("first unsigned condition", NGULO_COND_LTU, 6);
    expect("last condition", NGULO_COND_GTU, 9);
    expect("flags", NGULO_FLAG_SIZE + NGULO_FLAG_SIGNED + NGULO_FLAG_BIG_ENDIAN + NGULO_FLAG_ALIGNED, 31);
    expect("aligned", NGULO_FLAG_ALIGNED, 16);
    expect("a swap's input flag", NGULO_BSWAP_IZ, 1);
    expect("a swap's output flags", 16 * NGULO_BSWAP_OZ + NGULO_BSWAP_OS, 0x24);
}

/* The version is said once in words and once in numbers. */
static void versions(void)
{
    char words[32];

    sprintf(words, "%d.%d.%d", NGULO_VERSION_MAJOR, NGULO_VERSION_MINOR, NGULO_VERSION_PATCH);
    expect("version in words", (uint64_t)strcmp(words, NGULO_VERSION), 0);
    expect("version: major", NGULO_VERSION_NUMBER / 65536, NGULO_VERSION_MAJOR);
    expect("version: minor", NGULO_VERSION_NUMBER / 256 % 256, NGULO_VERSION_MINOR);
    expect("version: patch", NGULO_VERSION_NUMBER % 256, NGULO_VERSION_PATCH);
}

/* Every 3 bytes may become 10, but no result is longer than NGULO_MAX_RESULT. */
static void bounds(void)
{
    expect("bound of 0", ngulo_result_bound(0), 0);
    expect("bound of 2", ngulo_result_bound(2), 6);
    expect("bound of 5", ngulo_result_bound(5), 16);
    expect("bound of 38", ngulo_result_bound(38), 126);
    expect("bound of 826", ngulo_result_bound(826), 2753);
    expect("bound of 3251", ngulo_result_bound(3251), 10836);
    expect("bound of 3252", ngulo_result_bound(3252), NGULO_MAX_RESULT);
    expect("bound of 3253", ngulo_result_bound(3253), NGULO_MAX_RESULT);
    expect("bound of 10832", ngulo_result_bound(10832), NGULO_MAX_RESULT);
    expect("bound of 10840", ngulo_result_bound(10840), NGULO_MAX_RESULT);
    expect("bound that size_t cannot hold", ngulo_result_bound((SIZE_MAX / 10 + 1) * 3), NGULO_MAX_RESULT);
    expect("bound of SIZE_MAX", ngulo_result_bound(SIZE_MAX), NGULO_MAX_RESULT);
}

static void answers(void)
{
    expect("accepted: refused", (uint64_t)ngulo_is_refused(0), 0);
    expect("accepted: number", ngulo_refusal_number(0), NGULO_REFUSAL_NONE);
    expect("refusal 7 at 31: refused", (uint64_t)ngulo_is_refused(7 + 256 * 31), 1);
    expect("refusal 7 at 31: number", ngulo_refusal_number(7 + 256 * 31), NGULO_REFUSAL_BAD_LABEL);
    expect("refusal 7 at 31: place", ngulo_refusal_place(7 + 256 * 31), 31);
    expect("refusal 12 at 0: refused", (uint64_t)ngulo_is_refused(12), 1);
    expect("refusal 12 at 0: place", ngulo_refusal_place(12), 0);
    expect("refusal 10 at 10840: refused", (uint64_t)ngulo_is_refused(10 + 256 * 10840), 1);
    expect("refusal 10 at 10840: number", ngulo_refusal_number(10 + 256 * 10840), NGULO_REFUSAL_NO_EXIT);
    expect("refusal 10 at 10840: place", ngulo_refusal_place(10 + 256 * 10840), NGULO_MAX_RESULT);
    expect("length 10840: refused", (uint64_t)ngulo_is_refused((uint64_t)256 * 10840), 0);
    expect("length 10840", ngulo_result_length((uint64_t)256 * 10840), NGULO_MAX_RESULT);
}

/*
 * Faults by alignment, of a load with all flags and of a store, and by bounds, with bit 4 and without: no helper takes
 * one part of report[2] for another.
 */
static void reasons(void)
{
    static const uint64_t misaligned_load[NGULO_REPORT_LENGTH] = {2, 9, 0x1F + 65536, 3};
    static const uint64_t misaligned_store[NGULO_REPORT_LENGTH] = {2, 9, 0x12 + 256 + 65536, 3};
    static const uint64_t past_aligned[NGULO_REPORT_LENGTH] = {2, 16, 0x1B + 256, 3};
    static const uint64_t past_plain[NGULO_REPORT_LENGTH] = {2, 16, 0x0F, 3};

    expect("misaligned load: reason", ngulo_report_fault_reason(misaligned_load), NGULO_FAULT_ALIGNMENT);
    expect("misaligned load: store", (uint64_t)ngulo_report_fault_is_store(misaligned_load), 0);
    expect("misaligned load: flags", ngulo_report_fault_flags(misaligned_load), 0x1F);
    expect("misaligned load: size", ngulo_report_fault_size(misaligned_load), 8);
    expect("misaligned load: signed", (uint64_t)ngulo_report_fault_is_signed(misaligned_load), 1);
    expect("misaligned load: big-endian", (uint64_t)ngulo_report_fault_is_big_endian(misaligned_load), 1);
    expect("misaligned load: alignment", (uint64_t)ngulo_report_fault_requires_alignment(misaligned_load), 1);
    expect("misaligned store: reason", ngulo_report_fault_reason(misaligned_store), NGULO_FAULT_ALIGNMENT);
    expect("misaligned store: store", (uint64_t)ngulo_report_fault_is_store(misaligned_store), 1);
    expect("misaligned store: flags", ngulo_report_fault_flags(misaligned_store), 0x12);
    expect("misaligned store: size", ngulo_report_fault_size(misaligned_store), 4);
    expect("misaligned store: signed", (uint64_t)ngulo_report_fault_is_signed(misaligned_store), 0);
    expect("misaligned store: big-endian", (uint64_t)ngulo_report_fault_is_big_endian(misaligned_store), 0);
    expect("aligned store past the memory: reason", ngulo_report_fault_reason(past_aligned), NGULO_FAULT_BOUNDS);
    expect("aligned store past the memory: store", (uint64_t)ngulo_report_fault_is_store(past_aligned), 1);
    expect("aligned store past the memory: alignment", (uint64_t)ngulo_report_fault_requires_alignment(past_aligned), 1);
    expect("load past the memory: reason", ngulo_report_fault_reason(past_plain), NGULO_FAULT_BOUNDS);
    expect("load past the memory: alignment", (uint64_t)ngulo_report_fault_requires_alignment(past_plain), 0);
}

static void reports(void)
{
    static const uint64_t leaves[NGULO_REPORT_LENGTH] = {1, UINT64_MAX, 0, 5};
    static const uint64_t loads[NGULO_REPORT_LENGTH] = {2, UINT64_MAX - 1, 0x0F, 3};
    static const uint64_t stores[NGULO_REPORT_LENGTH] = {2, 16, 0x0A + 256, 1023};
    static const uint64_t little[NGULO_REPORT_LENGTH] = {2, 16, 0x04, 1};
    static const uint64_t unstated[NGULO_REPORT_LENGTH] = {3, 1022, 0, 2};

    expect("exit", ngulo_report_ending(leaves), NGULO_ENDING_EXIT);
    expect("exit: value", ngulo_report_exit_value(leaves), UINT64_MAX);
    expect("exit: count", ngulo_report_count(leaves), 5);
    expect("load", ngulo_report_ending(loads), NGULO_ENDING_FAULT);
    expect("load: address", ngulo_report_fault_address(loads), UINT64_MAX - 1);
    expect("load: store", (uint64_t)ngulo_report_fault_is_store(loads), 0);
    expect("load: flags", ngulo_report_fault_flags(loads), NGULO_FLAG_BIG_ENDIAN + NGULO_FLAG_SIGNED + 3);
    expect("load: size", ngulo_report_fault_size(loads), 8);
    expect("load: signed", (uint64_t)ngulo_report_fault_is_signed(loads), 1);
    expect("load: big-endian", (uint64_t)ngulo_report_fault_is_big_endian(loads), 1);
    expect("store: address", ngulo_report_fault_address(stores), 16);
    expect("store: store", (uint64_t)ngulo_report_fault_is_store(stores), 1);
    expect("store: flags", ngulo_report_fault_flags(stores), NGULO_FLAG_BIG_ENDIAN + 2);
    expect("store: size", ngulo_report_fault_size(stores), 4);
    expect("store: signed", (uint64_t)ngulo_report_fault_is_signed(stores), 0);
    expect("store: big-endian", (uint64_t)ngulo_report_fault_is_big_endian(stores), 1);
    expect("little-endian", (uint64_t)ngulo_report_fault_is_big_endian(little), 0);
    expect("little-endian: signed", (uint64_t)ngulo_report_fault_is_signed(little), 1);
    expect("little-endian: size", ngulo_report_fault_size(little), 1);
    expect("store: count", ngulo_report_count(stores), 1023);
    expect("no result", ngulo_report_ending(unstated), NGULO_ENDING_NO_RESULT);
    expect("no result: position", ngulo_report_position(unstated), 1022);
    expect("no result: count", ngulo_report_count(unstated), 2);
}

/* What the last call was lent. */
static struct lent {
    const void *block, *out, *globals, *memory, *report;
    size_t block_length, out_length, globals_length, memory_length;
} lent;

static uint64_t pass_answer = 102;

static void lend_block(const uint8_t *block, size_t block_length)
{
    lent.block = block;
    lent.block_length = block_length;
}

uint64_t ngulo_check(const uint8_t *block, size_t block_length)
{
    lend_block(block, block_length);
    return 101;
}

/* Fills out whatever it answers, so that one sees what is taken from there. */
uint64_t ngulo_pass(const uint8_t *block, size_t block_length, uint8_t *out, size_t out_length)
{
    lend_block(block, block_length);
    lent.out = out;
    lent.out_length = out_length;
    memset(out, 0xAA, out_length);
    return pass_answer;
}

uint64_t ngulo_run(const uint8_t *block, size_t block_length, uint64_t *globals, size_t globals_length,
                   uint8_t *memory, size_t memory_length, uint64_t report[4])
{
    lend_block(block, block_length);
    lent.globals = globals;
    lent.globals_length = globals_length;
    lent.memory = memory;
    lent.memory_length = memory_length;
    lent.report = report;
    return 103;
}

static void nullable_with_nothing(void)
{
    uint64_t report[NGULO_REPORT_LENGTH];

    memset(&lent, 0, sizeof lent);
    expect("check of NULL", ngulo_check_nullable(NULL, 0), 101);
    expect("check of NULL: block", lent.block == NULL || lent.block_length != 0, 0);
    memset(&lent, 0, sizeof lent);
    expect("pass of NULL", ngulo_pass_nullable(NULL, 0, NULL, 0), 102);
    expect("pass of NULL: block", lent.block == NULL || lent.block_length != 0, 0);
    expect("pass of NULL: out", lent.out == NULL || lent.out == lent.block || lent.out_length != 0, 0);
    memset(&lent, 0, sizeof lent);
    expect("run of NULL", ngulo_run_nullable(NULL, 0, NULL, 0, NULL, 0, report), 103);
    expect("run of NULL: block", lent.block == NULL || lent.block_length != 0, 0);
    expect("run of NULL: globals", lent.globals == NULL || lent.globals_length != 0, 0);
    expect("run of NULL: globals aligned", (uintptr_t)lent.globals % sizeof(uint64_t), 0);
    expect("run of NULL: memory", lent.memory == NULL || lent.memory_length != 0, 0);
    expect("run of NULL: report", lent.report == report, 1);
}

static void nullable_with_all(void)
{
    static const uint8_t block[3] = {0, 0, 0};
    uint8_t bytes[4];
    uint64_t globals[5];
    uint64_t report[NGULO_REPORT_LENGTH];

    expect("check", ngulo_check_nullable(block, 3), 101);
    expect("check: block", lent.block == block && lent.block_length == 3, 1);
    memset(&lent, 0, sizeof lent);
    expect("pass", ngulo_pass_nullable(block, 3, bytes, 4), 102);
    expect("pass: block", lent.block == block && lent.block_length == 3, 1);
    expect("pass: out", lent.out == bytes && lent.out_length == 4, 1);
    memset(&lent, 0, sizeof lent);
    expect("run", ngulo_run_nullable(block, 3, globals, 5, bytes, 4, report), 103);
    expect("run: block", lent.block == block && lent.block_length == 3, 1);
    expect("run: globals", lent.globals == globals && lent.globals_length == 5, 1);
    expect("run: memory", lent.memory == bytes && lent.memory_length == 4, 1);
    expect("run: report", lent.report == report, 1);
}

/* The pass answers so and writes all it is lent: how many bytes of a buffer with this room are written over? */
static size_t written_in_place(uint64_t answer, size_t room)
{
    static uint8_t buffer[NGULO_MAX_RESULT + 8];
    size_t written = 0;
    size_t i;

    memset(&lent, 0, sizeof lent);
    memset(buffer, 0xEE, sizeof buffer);
    pass_answer = answer;
    expect("in place", ngulo_pass_in_place(buffer, 3, room), answer);
    pass_answer = 102;
    expect("in place: block", lent.block == buffer && lent.block_length == 3, 1);
    expect("in place: out", lent.out != buffer && lent.out != NULL, 1);
    expect("in place: room", lent.out_length, room < NGULO_MAX_RESULT ? room : NGULO_MAX_RESULT);
    while (written < sizeof buffer && buffer[written] == 0xAA) {
        written += 1;
    }
    for (i = written; i < sizeof buffer; i += 1) {
        expect("in place: bytes after the result", buffer[i], 0xEE);
    }
    return written;
}

static void in_place(void)
{
    expect("in place: a result", written_in_place(256 * 2, 9), 2);
    expect("in place: a result that fills the room", written_in_place(256 * 9, 9), 9);
    expect("in place: the longest result", written_in_place((uint64_t)256 * NGULO_MAX_RESULT, NGULO_MAX_RESULT + 8),
           NGULO_MAX_RESULT);
    expect("in place: no room", written_in_place(NGULO_REFUSAL_NO_ROOM, 9), 0);
    expect("in place: a refusal with a place", written_in_place(NGULO_REFUSAL_UNDECLARED + 256 * 3, 9), 0);
}

/* The words that name a limit name the header's. */
static void limits_in_texts(void)
{
    char words[64];

    sprintf(words, "bad or misplaced declaration, or %dst variable", NGULO_MAX_VARIABLES + 1);
    expect("text: 3", (uint64_t)strcmp(ngulo_refusal_text(NGULO_REFUSAL_BAD_DECLARATION), words), 0);
    sprintf(words, "%dth op", NGULO_MAX_OPS + 1);
    expect("text: 9", (uint64_t)strcmp(ngulo_refusal_text(NGULO_REFUSAL_TOO_MANY_OPS), words), 0);
}

/* Each number has words of its own. */
static void texts(void)
{
    unsigned i;
    unsigned j;

    for (i = 0; i <= NGULO_REFUSAL_NO_ROOM + 1; i += 1) {
        expect("text: empty", ngulo_refusal_text(i)[0] == '\0', 0);
        for (j = 0; j < i; j += 1) {
            expect("text: twice", strcmp(ngulo_refusal_text(i), ngulo_refusal_text(j)) == 0, 0);
        }
    }
    expect("text: 6", (uint64_t)strcmp(ngulo_refusal_text(6), "bad condition, flags, label, position, length or 32-bit constant"), 0);
    expect("text: 8", (uint64_t)strcmp(ngulo_refusal_text(8), "temporary read before a write in its extended basic block"), 0);
    expect("text: 255", (uint64_t)strcmp(ngulo_refusal_text(255), "no refusal has this number"), 0);
    expect("text: bounds", (uint64_t)strcmp(ngulo_fault_reason_text(NGULO_FAULT_BOUNDS), "bounds"), 0);
    expect("text: alignment", (uint64_t)strcmp(ngulo_fault_reason_text(NGULO_FAULT_ALIGNMENT), "alignment"), 0);
    expect("text: reason 2", (uint64_t)strcmp(ngulo_fault_reason_text(2), "no reason has this number"), 0);
}

int main(void)
{
    constants();
    numbers();
    versions();
    bounds();
    answers();
    reports();
    reasons();
    nullable_with_nothing();
    nullable_with_all();
    in_place();
    limits_in_texts();
    texts();
    if (failures == 0) {
        puts("header: as it should be");
    }
    return failures != 0;
}
