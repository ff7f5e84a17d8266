/* A bench in C: checks a block, optimises it, runs both on the same globals, and takes the answers apart. */
#include <ngulo.h>

#include <inttypes.h>
#include <stdio.h>

/* Four globals, a temporary, five ops. docs/FORMAT.md says what the bytes of each record are. */
static const uint8_t block[] = {
    NGULO_KIND_DECL, NGULO_CLASS_GLOBAL, NGULO_TYPE_I64,    /* v0 */
    NGULO_KIND_DECL, NGULO_CLASS_GLOBAL, NGULO_TYPE_I32,    /* v1 */
    NGULO_KIND_DECL, NGULO_CLASS_GLOBAL, NGULO_TYPE_I32,    /* v2 */
    NGULO_KIND_DECL, NGULO_CLASS_GLOBAL, NGULO_TYPE_I32,    /* v3 */
    NGULO_KIND_DECL, NGULO_CLASS_TEMPORARY, NGULO_TYPE_I32, /* v4 */
    NGULO_KIND_MOVI_I32, 4, 1, 0, 0, 0, 0, 0, 0, 0,         /* v4 = 1 */
    NGULO_KIND_ADD_I32, 1, 2, 3,                            /* v1 = v2 + v3 */
    NGULO_KIND_ADD_I32, 1, 1, 4,                            /* v1 = v1 + v4 */
    NGULO_KIND_MOV_I32, 1, 4,                               /* v1 = v4 */
    NGULO_KIND_EXIT_TB, 0};                                 /* leave with v0 */

/* The header that a program was compiled with and the library it runs with may differ, in more than the patch number. */
static void compare_versions(void)
{
    unsigned version = (unsigned)ngulo_version();

    if (version >> 8 != NGULO_VERSION_NUMBER >> 8) {
        fprintf(stderr, "bench: compiled with ngulo.h %s, running with library %u.%u.%u\n", NGULO_VERSION, version >> 16,
                version >> 8 & 255, version & 255);
    }
}

static int refused(const char *call, uint64_t answer)
{
    unsigned number = ngulo_refusal_number(answer);

    printf("%s: refusal %u at %lu: %s\n", call, number, (unsigned long)ngulo_refusal_place(answer),
           ngulo_refusal_text(number));
    return 1;
}

static int run(const char *name, const uint8_t *bytes, size_t length)
{
    uint64_t globals[4] = {42, 0, 2, 3};
    uint64_t report[NGULO_REPORT_LENGTH];
    uint64_t answer = ngulo_run_nullable(bytes, length, globals, 4, NULL, 0, report); /* no memory */

    if (ngulo_is_refused(answer)) {
        return refused("run", answer);
    }
    if (ngulo_report_ending(report) == NGULO_ENDING_EXIT) {
        printf("%s: exit %" PRIu64 " after %" PRIu64 " ops, global 1 is %" PRIu64 "\n", name,
               ngulo_report_exit_value(report), ngulo_report_count(report), globals[1]);
    } else if (ngulo_report_ending(report) == NGULO_ENDING_FAULT) {
        printf("%s: fault of a %s at %" PRIu64 ": %s\n", name, ngulo_report_fault_is_store(report) ? "store" : "load",
               ngulo_report_fault_address(report), ngulo_fault_reason_text(ngulo_report_fault_reason(report)));
    } else if (ngulo_report_ending(report) == NGULO_ENDING_NO_RESULT) {
        printf("%s: op %" PRIu64 " has no stated result\n", name, ngulo_report_position(report));
    } else {
        printf("%s: an ending of a later version\n", name);
    }
    return 0;
}

int main(void)
{
    uint8_t result[NGULO_MAX_RESULT];
    uint64_t answer = ngulo_check(block, sizeof block);

    compare_versions();
    if (ngulo_is_refused(answer)) {
        return refused("check", answer);
    }
    answer = ngulo_pass(block, sizeof block, result, sizeof result);
    if (ngulo_is_refused(answer)) {
        return refused("pass", answer);
    }
    printf("%lu bytes became %lu\n", (unsigned long)sizeof block, (unsigned long)ngulo_result_length(answer));
    return run("before", block, sizeof block) || run("after", result, ngulo_result_length(answer));
}
