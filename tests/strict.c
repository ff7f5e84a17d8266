/* A user's file that calls every function of the header: tests/strict compiles it, with all warnings. */
#include <ngulo.h>

/* A user may have this name. */
struct ngulo_report {
    uint64_t places[NGULO_REPORT_LENGTH];
};

uint64_t use_names(void);
uint64_t use_calls(const uint8_t *block, size_t block_length, uint8_t *out, size_t out_length, uint64_t *globals);
uint64_t use_answer(uint64_t answer);
uint64_t use_report(const struct ngulo_report *report);

/* A block made of the header's names. */
uint64_t use_names(void)
{
    static const uint8_t block[] = {NGULO_KIND_DECL, NGULO_CLASS_GLOBAL, NGULO_TYPE_I64,
                                    NGULO_KIND_WIDE + NGULO_KIND_SETCOND_I32, 0, 0, 0, NGULO_COND_GTU,
                                    NGULO_KIND_QEMU_LD_I64, 0, 0, NGULO_SIZE_2 | NGULO_FLAG_SIGNED | NGULO_FLAG_BIG_ENDIAN | NGULO_FLAG_ALIGNED,
                                    NGULO_KIND_WIDE + NGULO_KIND_BSWAP16_I32, 0, 0, NGULO_BSWAP_IZ | NGULO_BSWAP_OZ,
                                    NGULO_KIND_EXIT_TB, 0};

    return ngulo_check(block, sizeof block);
}

uint64_t use_calls(const uint8_t *block, size_t block_length, uint8_t *out, size_t out_length, uint64_t *globals)
{
    struct ngulo_report report = {{0, 0, 0, 0}};
    uint64_t answers = ngulo_version() ^ NGULO_VERSION_NUMBER;

    if (out_length < NGULO_MAX_RESULT || block_length > NGULO_MAX_RESULT) {
        return NGULO_MAX_RESULT - NGULO_MAX_OPS;
    }
    answers |= ngulo_check(block, block_length);
    answers |= ngulo_pass(block, block_length, out, out_length);
    answers |= ngulo_run(block, block_length, globals, 1, out, out_length, report.places);
    answers |= ngulo_check_nullable(block, block_length);
    answers |= ngulo_pass_nullable(block, block_length, out, out_length);
    answers |= ngulo_run_nullable(block, block_length, globals, 1, out, out_length, report.places);
    answers |= ngulo_pass_in_place(out, block_length, ngulo_result_bound(block_length));
    return answers | use_report(&report);
}

uint64_t use_answer(uint64_t answer)
{
    if (ngulo_is_refused(answer)) {
        return ngulo_refusal_text(ngulo_refusal_number(answer))[0] == 'a' ? ngulo_refusal_place(answer) : 0;
    }
    return ngulo_result_length(answer);
}

uint64_t use_report(const struct ngulo_report *report)
{
    switch (ngulo_report_ending(report->places)) {
    case NGULO_ENDING_EXIT:
        return ngulo_report_exit_value(report->places);
    case NGULO_ENDING_FAULT:
        if (ngulo_report_fault_is_store(report->places) || ngulo_report_fault_is_signed(report->places) ||
            ngulo_report_fault_is_big_endian(report->places)) {
            return ngulo_report_fault_flags(report->places);
        }
        if (ngulo_report_fault_requires_alignment(report->places)) {
            return ngulo_fault_reason_text(ngulo_report_fault_reason(report->places))[0] == 'a';
        }
        return ngulo_report_fault_address(report->places) + ngulo_report_fault_size(report->places);
    default:
        return ngulo_report_position(report->places) + ngulo_report_count(report->places);
    }
}
