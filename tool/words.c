#include "words.h"

#include "records.h"

#include <inttypes.h>
#include <stdio.h>

/* Room for an access in words, and for why it faulted. */
enum { ACCESS_SIZE = 96, REASON_SIZE = 64 };

/* After a fault: "load of 4 bytes at 0xd, unsigned, little-endian, alignment required". */
static void access_words(const uint64_t report[4], char text[ACCESS_SIZE])
{
    int store = ngulo_report_fault_is_store(report);
    const char *sign = store ? "" : ngulo_report_fault_is_signed(report) ? ", signed" : ", unsigned";
    unsigned size = ngulo_report_fault_size(report);

    snprintf(text, ACCESS_SIZE, "%s of %u byte%s at 0x%" PRIx64 "%s, %s-endian%s", store ? "store" : "load", size,
             size == 1 ? "" : "s", ngulo_report_fault_address(report), sign,
             ngulo_report_fault_is_big_endian(report) ? "big" : "little",
             ngulo_report_fault_requires_alignment(report) ? ", alignment required" : "");
}

static void bounds_words(size_t memory_length, char text[REASON_SIZE])
{
    if (memory_length == 0) {
        snprintf(text, REASON_SIZE, "there is no memory");
    } else {
        snprintf(text, REASON_SIZE, "it reaches past the end of the %lu-byte memory", (unsigned long)memory_length);
    }
}

/* After a fault: "0xd is no multiple of 4", "it reaches past the end of the 16-byte memory". */
static void reason_words(const uint64_t report[4], size_t memory_length, char text[REASON_SIZE])
{
    switch (ngulo_report_fault_reason(report)) {
    case NGULO_FAULT_BOUNDS:
        bounds_words(memory_length, text);
        break;
    case NGULO_FAULT_ALIGNMENT:
        snprintf(text, REASON_SIZE, "0x%" PRIx64 " is no multiple of %u", ngulo_report_fault_address(report),
                 ngulo_report_fault_size(report));
        break;
    default:
        snprintf(text, REASON_SIZE, "reason %u, which this program does not know", ngulo_report_fault_reason(report));
        break;
    }
}

void ending_words(const uint64_t report[4], size_t memory_length, char text[ENDING_SIZE])
{
    uint64_t count = ngulo_report_count(report);
    const char *plural = count == 1 ? "" : "s";
    char access[ACCESS_SIZE];
    char reason[REASON_SIZE];

    switch (ngulo_report_ending(report)) {
    case NGULO_ENDING_EXIT:
        snprintf(text, ENDING_SIZE, "exit 0x%" PRIx64 " after %" PRIu64 " op%s", ngulo_report_exit_value(report), count,
                 plural);
        break;
    case NGULO_ENDING_FAULT:
        access_words(report, access);
        reason_words(report, memory_length, reason);
        snprintf(text, ENDING_SIZE, "fault after %" PRIu64 " op%s: %s: %s", count, plural, access, reason);
        break;
    case NGULO_ENDING_NO_RESULT:
        snprintf(text, ENDING_SIZE, "no stated result at op %" PRIu64 " after %" PRIu64 " op%s",
                 ngulo_report_position(report), count, plural);
        break;
    default:
        snprintf(text, ENDING_SIZE, "ending %u, which this program does not know", ngulo_report_ending(report));
        break;
    }
}

const char *unstated_words(uint8_t kind)
{
    switch (narrow_kind(kind)) {
    case NGULO_KIND_DIVS_I32:
    case NGULO_KIND_REMS_I32:
        return "the divisor is zero, or the smallest value is divided by minus one";
    case NGULO_KIND_DIVU_I32:
    case NGULO_KIND_REMU_I32:
        return "the divisor is zero";
    case NGULO_KIND_SHL_I32:
    case NGULO_KIND_SHR_I32:
    case NGULO_KIND_SAR_I32:
    case NGULO_KIND_ROTL_I32:
    case NGULO_KIND_ROTR_I32:
        return "the count is not below the width";
    case NGULO_KIND_BSWAP16_I32:
        return "IZ is set, but the input is not zero above bit 15";
    case NGULO_KIND_BSWAP32_I32:
        return "IZ is set, but the input is not zero above bit 31";
    default:
        return "";
    }
}
