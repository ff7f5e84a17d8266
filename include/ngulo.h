/*
 * ngulo: a checker, a reference runner and an optimiser for blocks of TCG ops.
 *
 * Link with libngulo.a or libngulo.so. C99 or later, C++11 or later. docs/FORMAT.md says what a block is, byte by byte,
 * what every number here means, and what a run and the pass do.
 *
 * What the caller ensures, in every call:
 * - each pointer is valid for its length, which counts bytes (of globals: numbers; report has four numbers), and not
 *   NULL even where the length is 0; the ..._nullable calls below lift this for length 0;
 * - globals and report are aligned for uint64_t;
 * - a buffer that a call may write (out, globals, memory, report) overlaps no other buffer of that call: to optimise a
 *   block where it stands, there is ngulo_pass_in_place;
 * - until the call is back, nobody else uses such a buffer, and nobody writes the block;
 * - no buffer is longer than PTRDIFF_MAX bytes.
 * Nothing else is asked. Whatever the bytes and numbers are, each call comes back with an answer. No call allocates,
 * keeps a pointer, or has state of its own, so calls on different buffers may run at the same time. Each takes less
 * than 16 KB of stack (ngulo_pass_in_place: less than 27 KB).
 *
 * A later version may have more kinds, refusals, endings and reasons: have a default where you tell them apart.
 */
#ifndef NGULO_H
#define NGULO_H

#include <stddef.h>
#include <stdint.h>
#include <string.h>

/* The version of this header; ngulo_version() is that of the library. */
#define NGULO_VERSION_MAJOR 0
#define NGULO_VERSION_MINOR 7
#define NGULO_VERSION_PATCH 0
#define NGULO_VERSION "0.7.0"
#define NGULO_VERSION_NUMBER (65536 * NGULO_VERSION_MAJOR + 256 * NGULO_VERSION_MINOR + NGULO_VERSION_PATCH)

/* What stands before the library's functions. Define it yourself to have something else there. */
#ifndef NGULO_API
#if defined(__GNUC__)
#define NGULO_API __attribute__((visibility("default")))
#else
#define NGULO_API
#endif
#endif

/* A call's answer says whether it was refused: the compiler warns where it is not used. */
#if defined(__GNUC__)
#define NGULO_USE_ANSWER __attribute__((warn_unused_result))
#else
#define NGULO_USE_ANSWER
#endif

/* What a function with a large frame is, in place of static inline: gcc, if it optimises, would warn that it does not
   inline it; if it does not, it would keep a function that nobody calls. */
#if defined(__GNUC__) && !defined(__clang__) && defined(__OPTIMIZE__)
#define NGULO_STATIC __attribute__((unused)) static
#else
#define NGULO_STATIC static inline
#endif

#ifdef __cplusplus
#define NGULO_CAST(type, value) static_cast<type>(value)
extern "C" {
#else
#define NGULO_CAST(type, value) ((type)(value))
#endif

/* Limits. A block that is accepted, and the result of a pass, is within all of them. */
#define NGULO_MAX_VARIABLES 200
#define NGULO_MAX_OPS 1024
#define NGULO_MAX_LABELS 128    /* labels 0 to 127 */
#define NGULO_MAX_MEMORY 65536  /* bytes lent to a run */
/* Bytes of a result: declarations of 3 and ops of at most 10; 10840. */
#define NGULO_MAX_RESULT (3 * NGULO_MAX_VARIABLES + 10 * NGULO_MAX_OPS)

/* The first byte of a record. Operands are the numbers of variables, a byte each, outputs first. A bit field starts at
   bit pos, counted from the lowest, and has len bits. */
enum ngulo_kind {
    NGULO_KIND_DECL = 0x01,              /* class, type */
    NGULO_KIND_SET_LABEL = 0x02,         /* label */
    NGULO_KIND_BR = 0x03,                /* label */
    NGULO_KIND_EXIT_TB = 0x04,           /* t */
    NGULO_KIND_EXT_I32_I64 = 0x05,       /* d, a */
    NGULO_KIND_EXTU_I32_I64 = 0x06,      /* d, a */
    NGULO_KIND_TRUNC_I64_I32 = 0x07,     /* d, a */
    NGULO_KIND_MOVI_I32 = 0x10,          /* d, constant of eight bytes, little-endian */
    NGULO_KIND_MOV_I32 = 0x11,           /* d, a */
    NGULO_KIND_NEG_I32 = 0x12,           /* d, a */
    NGULO_KIND_NOT_I32 = 0x13,           /* d, a */
    NGULO_KIND_ADD_I32 = 0x14,           /* d, a, b */
    NGULO_KIND_SUB_I32 = 0x15,           /* d, a, b */
    NGULO_KIND_MUL_I32 = 0x16,           /* d, a, b */
    NGULO_KIND_AND_I32 = 0x17,           /* d, a, b */
    NGULO_KIND_OR_I32 = 0x18,            /* d, a, b */
    NGULO_KIND_XOR_I32 = 0x19,           /* d, a, b */
    NGULO_KIND_ANDC_I32 = 0x1A,          /* d, a, b */
    NGULO_KIND_ORC_I32 = 0x1B,           /* d, a, b */
    NGULO_KIND_EQV_I32 = 0x1C,           /* d, a, b */
    NGULO_KIND_NAND_I32 = 0x1D,          /* d, a, b */
    NGULO_KIND_NOR_I32 = 0x1E,           /* d, a, b */
    NGULO_KIND_DIVS_I32 = 0x1F,          /* d, a, b */
    NGULO_KIND_DIVU_I32 = 0x20,          /* d, a, b */
    NGULO_KIND_REMS_I32 = 0x21,          /* d, a, b */
    NGULO_KIND_REMU_I32 = 0x22,          /* d, a, b */
    NGULO_KIND_SHL_I32 = 0x23,           /* d, a, b */
    NGULO_KIND_SHR_I32 = 0x24,           /* d, a, b */
    NGULO_KIND_SAR_I32 = 0x25,           /* d, a, b */
    NGULO_KIND_ROTL_I32 = 0x26,          /* d, a, b */
    NGULO_KIND_ROTR_I32 = 0x27,          /* d, a, b */
    NGULO_KIND_SETCOND_I32 = 0x28,       /* d, a, b, cond */
    NGULO_KIND_MOVCOND_I32 = 0x29,       /* d, c1, c2, v1, v2, cond */
    NGULO_KIND_BRCOND_I32 = 0x2A,        /* a, b, cond, label */
    NGULO_KIND_QEMU_LD_I32 = 0x2B,       /* d, address, flags */
    NGULO_KIND_QEMU_ST_I32 = 0x2C,       /* value, address, flags */
    NGULO_KIND_DEPOSIT_I32 = 0x2D,       /* d, a, b, pos, len */
    NGULO_KIND_EXTRACT_I32 = 0x2E,       /* d, a, pos, len */
    NGULO_KIND_SEXTRACT_I32 = 0x2F,      /* d, a, pos, len */
    NGULO_KIND_EXTRACT2_I32 = 0x30,      /* d, a, b, pos */
    NGULO_KIND_BSWAP16_I32 = 0x31,       /* d, a, flags */
    NGULO_KIND_BSWAP32_I32 = 0x32,       /* d, a, flags */
    NGULO_KIND_CLZ_I32 = 0x34,           /* d, a, b */
    NGULO_KIND_CTZ_I32 = 0x35,           /* d, a, b */
    NGULO_KIND_CTPOP_I32 = 0x36,         /* d, a */
    NGULO_KIND_MOVI_I64 = 0x90,          /* d, constant of eight bytes, little-endian */
    NGULO_KIND_MOV_I64 = 0x91,           /* d, a */
    NGULO_KIND_NEG_I64 = 0x92,           /* d, a */
    NGULO_KIND_NOT_I64 = 0x93,           /* d, a */
    NGULO_KIND_ADD_I64 = 0x94,           /* d, a, b */
    NGULO_KIND_SUB_I64 = 0x95,           /* d, a, b */
    NGULO_KIND_MUL_I64 = 0x96,           /* d, a, b */
    NGULO_KIND_AND_I64 = 0x97,           /* d, a, b */
    NGULO_KIND_OR_I64 = 0x98,            /* d, a, b */
    NGULO_KIND_XOR_I64 = 0x99,           /* d, a, b */
    NGULO_KIND_ANDC_I64 = 0x9A,          /* d, a, b */
    NGULO_KIND_ORC_I64 = 0x9B,           /* d, a, b */
    NGULO_KIND_EQV_I64 = 0x9C,           /* d, a, b */
    NGULO_KIND_NAND_I64 = 0x9D,          /* d, a, b */
    NGULO_KIND_NOR_I64 = 0x9E,           /* d, a, b */
    NGULO_KIND_DIVS_I64 = 0x9F,          /* d, a, b */
    NGULO_KIND_DIVU_I64 = 0xA0,          /* d, a, b */
    NGULO_KIND_REMS_I64 = 0xA1,          /* d, a, b */
    NGULO_KIND_REMU_I64 = 0xA2,          /* d, a, b */
    NGULO_KIND_SHL_I64 = 0xA3,           /* d, a, b */
    NGULO_KIND_SHR_I64 = 0xA4,           /* d, a, b */
    NGULO_KIND_SAR_I64 = 0xA5,           /* d, a, b */
    NGULO_KIND_ROTL_I64 = 0xA6,          /* d, a, b */
    NGULO_KIND_ROTR_I64 = 0xA7,          /* d, a, b */
    NGULO_KIND_SETCOND_I64 = 0xA8,       /* d, a, b, cond */
    NGULO_KIND_MOVCOND_I64 = 0xA9,       /* d, c1, c2, v1, v2, cond */
    NGULO_KIND_BRCOND_I64 = 0xAA,        /* a, b, cond, label */
    NGULO_KIND_QEMU_LD_I64 = 0xAB,       /* d, address, flags */
    NGULO_KIND_QEMU_ST_I64 = 0xAC,       /* value, address, flags */
    NGULO_KIND_DEPOSIT_I64 = 0xAD,       /* d, a, b, pos, len */
    NGULO_KIND_EXTRACT_I64 = 0xAE,       /* d, a, pos, len */
    NGULO_KIND_SEXTRACT_I64 = 0xAF,      /* d, a, pos, len */
    NGULO_KIND_EXTRACT2_I64 = 0xB0,      /* d, a, b, pos */
    NGULO_KIND_BSWAP16_I64 = 0xB1,       /* d, a, flags */
    NGULO_KIND_BSWAP32_I64 = 0xB2,       /* d, a, flags */
    NGULO_KIND_BSWAP64_I64 = 0xB3,       /* d, a, flags */
    NGULO_KIND_CLZ_I64 = 0xB4,           /* d, a, b */
    NGULO_KIND_CTZ_I64 = 0xB5,           /* d, a, b */
    NGULO_KIND_CTPOP_I64 = 0xB6          /* d, a */
};

/* The 64-bit form of a kind from NGULO_KIND_MOVI_I32 to NGULO_KIND_CTPOP_I32 is so much more. bswap64 has no 32-bit
   form. */
#define NGULO_KIND_WIDE 0x80

/* A declaration's class: how long the variable lives. Extended basic blocks end before set_label and after br and
   exit_tb; a brcond that does not jump goes on in the same one. */
enum ngulo_class {
    NGULO_CLASS_GLOBAL = 0,    /* outlives the block */
    NGULO_CLASS_LOCAL = 1,     /* a local temporary: lives through the block, and starts at zero */
    NGULO_CLASS_TEMPORARY = 2  /* lives through an extended basic block; in each it is written before it is read */
};

/* A declaration's type: the variable's width. */
enum ngulo_type {
    NGULO_TYPE_I32 = 0,
    NGULO_TYPE_I64 = 1
};

/* Conditions of setcond, movcond and brcond. */
enum ngulo_cond {
    NGULO_COND_EQ = 0,
    NGULO_COND_NE = 1,
    NGULO_COND_LT = 2,   /* signed */
    NGULO_COND_GE = 3,   /* signed */
    NGULO_COND_LE = 4,   /* signed */
    NGULO_COND_GT = 5,   /* signed */
    NGULO_COND_LTU = 6,  /* unsigned, as the three below */
    NGULO_COND_GEU = 7,
    NGULO_COND_LEU = 8,
    NGULO_COND_GTU = 9
};

/* Refusal numbers. The place is where the record starts, if nothing else is said. */
enum ngulo_refusal {
    NGULO_REFUSAL_NONE = 0,
    NGULO_REFUSAL_RECORD_CUT = 1,       /* a record runs past the end */
    NGULO_REFUSAL_UNKNOWN_KIND = 2,     /* unknown kind, 00 included */
    NGULO_REFUSAL_BAD_DECLARATION = 3,  /* after an op, bad class or type, global after a non-global, 201st variable */
    NGULO_REFUSAL_UNDECLARED = 4,       /* variable not declared */
    NGULO_REFUSAL_WRONG_WIDTH = 5,      /* an operand has the wrong width */
    NGULO_REFUSAL_BAD_FIELD = 6,        /* cond above 9, label above 127, bad flags, pos, len, movi_i32 from 2^32 on */
    NGULO_REFUSAL_BAD_LABEL = 7,        /* set twice, or jump to one already set; never set: at the block's length */
    NGULO_REFUSAL_UNWRITTEN = 8,        /* temporary read before a write in its extended basic block */
    NGULO_REFUSAL_TOO_MANY_OPS = 9,     /* 1025th op */
    NGULO_REFUSAL_NO_EXIT = 10,         /* no op, or last op is not exit_tb: at the block's length */
    NGULO_REFUSAL_UNFIT_STATE = 11,     /* run: globals or memory do not fit the block: at 0 */
    NGULO_REFUSAL_NO_ROOM = 12          /* pass: out is shorter than the result: at 0 */
};

/* How a run ended: report[NGULO_REPORT_ENDING]. */
enum ngulo_ending {
    NGULO_ENDING_EXIT = 1,
    NGULO_ENDING_FAULT = 2,
    NGULO_ENDING_NO_RESULT = 3  /* the next op has no stated result */
};

/* The places of a report. */
enum ngulo_report_place {
    NGULO_REPORT_ENDING = 0,
    NGULO_REPORT_DETAIL = 1,  /* exit: value; fault: address; no stated result: the op's position, from 0 */
    NGULO_REPORT_ACCESS = 2,  /* fault: flags + NGULO_ACCESS_STORE for a store + NGULO_ACCESS_REASON * reason; else 0 */
    NGULO_REPORT_COUNT = 3,   /* ops run */
    NGULO_REPORT_LENGTH = 4
};

/* An access's flags: one of the sizes, in bytes, and bits beside it: NGULO_SIZE_2 | NGULO_FLAG_BIG_ENDIAN. */
enum ngulo_flag {
    NGULO_SIZE_1 = 0,
    NGULO_SIZE_2 = 1,
    NGULO_SIZE_4 = 2,
    NGULO_SIZE_8 = 3,
    NGULO_FLAG_SIZE = 3,       /* the bits that hold the size */
    NGULO_FLAG_SIGNED = 4,     /* a load that sign-extends */
    NGULO_FLAG_BIG_ENDIAN = 8,
    NGULO_FLAG_ALIGNED = 16    /* the access faults where its address is no multiple of its size */
};

/* Why an access faulted: alignment where both apply. */
enum ngulo_fault_reason {
    NGULO_FAULT_BOUNDS = 0,    /* address plus size exceeds the memory's length */
    NGULO_FAULT_ALIGNMENT = 1  /* the flags have NGULO_FLAG_ALIGNED, and the address is no multiple of the size */
};

/*
 * The flags of a swap: NGULO_BSWAP_IZ | NGULO_BSWAP_OZ. bswap16 and bswap32_i64 have exactly one of OZ and OS, with or
 * without IZ; the flags of bswap32_i32 and bswap64_i64 are 0.
 */
enum ngulo_bswap_flag {
    NGULO_BSWAP_IZ = 1,  /* the input is zero-extended from what is swapped; if it is not, no result is stated */
    NGULO_BSWAP_OZ = 2,  /* the output is zero-extended */
    NGULO_BSWAP_OS = 4   /* the output is sign-extended */
};

/* What report[NGULO_REPORT_ACCESS] has after a fault, beside the flags. */
#define NGULO_ACCESS_STORE 256     /* this more for a store */
#define NGULO_ACCESS_REASON 65536  /* this, times the reason */

/* The version of the library: 65536 * major + 256 * minor + patch. */
NGULO_API uint64_t ngulo_version(void);

/*
 * Is the block accepted?
 * Answers 0 if it is, else number + 256 * place. Writes nothing.
 */
NGULO_USE_ANSWER NGULO_API uint64_t ngulo_check(const uint8_t *block, size_t block_length);

/*
 * Optimises the block: fold, then prune.
 * Answers 256 * length of the result, which is then at the start of out; the bytes after it stay as they were.
 * Else number + 256 * place, and out stays as it was. NGULO_MAX_RESULT bytes always have room.
 * The result is accepted, and does what the block did: same exit or same fault (its reason too), same globals, same
 * memory, in no more ops; unless the block's run meets an op without a stated result.
 */
NGULO_USE_ANSWER NGULO_API uint64_t ngulo_pass(const uint8_t *block, size_t block_length, uint8_t *out,
                                               size_t out_length);

/*
 * Runs the block on globals (as many as it declares, a 32-bit one below 2^32) and memory (at most NGULO_MAX_MEMORY).
 * Answers 0 with how the run ended in report; globals and memory hold what the completed ops left.
 * Else number + 256 * place, and globals, memory and report stay as they were.
 */
NGULO_USE_ANSWER NGULO_API uint64_t ngulo_run(const uint8_t *block, size_t block_length, uint64_t *globals,
                                              size_t globals_length, uint8_t *memory, size_t memory_length,
                                              uint64_t report[4]);

/*
 * No result of a block of this length is longer than this, if you do not want to lend NGULO_MAX_RESULT. A result can be
 * longer than its block: an op of 3 bytes may become one of 10. (Proved; in the sources crates/ngulo/specs/Bound.antt.)
 */
static inline size_t ngulo_result_bound(size_t block_length)
{
    size_t most = NGULO_MAX_RESULT;

    return block_length < most && 10 * block_length / 3 < most ? 10 * block_length / 3 : most;
}

/*
 * ngulo_pass onto the block itself, through a buffer on the stack. The buffer has room for buffer_length bytes, and the
 * block is the first block_length of them, at most all. Answers as ngulo_pass with the whole buffer as out: the bytes
 * after the result stay as they were, also those of the block, and a refusal leaves all of it as it was.
 */
NGULO_USE_ANSWER NGULO_STATIC uint64_t ngulo_pass_in_place(uint8_t *buffer, size_t block_length, size_t buffer_length)
{
    uint8_t result[NGULO_MAX_RESULT];
    size_t room = buffer_length < sizeof result ? buffer_length : sizeof result;
    uint64_t answer = ngulo_pass(buffer, block_length, result, room);

    if ((answer & 255) == 0) {
        memcpy(buffer, result, answer >> 8);
    }
    return answer;
}

/* The same calls, with any pointer allowed where the length is 0: NULL too. */

NGULO_USE_ANSWER static inline uint64_t ngulo_check_nullable(const uint8_t *block, size_t block_length)
{
    const uint8_t none = 0;

    return ngulo_check(block_length == 0 ? &none : block, block_length);
}

NGULO_USE_ANSWER static inline uint64_t ngulo_pass_nullable(const uint8_t *block, size_t block_length, uint8_t *out,
                                                            size_t out_length)
{
    const uint8_t none = 0;
    uint8_t no_out = 0;

    return ngulo_pass(block_length == 0 ? &none : block, block_length, out_length == 0 ? &no_out : out, out_length);
}

NGULO_USE_ANSWER static inline uint64_t ngulo_run_nullable(const uint8_t *block, size_t block_length, uint64_t *globals,
                                                           size_t globals_length, uint8_t *memory,
                                                           size_t memory_length, uint64_t report[4])
{
    const uint8_t none = 0;
    uint64_t no_globals = 0;
    uint8_t no_memory = 0;

    return ngulo_run(block_length == 0 ? &none : block, block_length, globals_length == 0 ? &no_globals : globals,
                     globals_length, memory_length == 0 ? &no_memory : memory, memory_length, report);
}

/* An answer taken apart, as every answer can be read back. (Proved; in the sources crates/ngulo/specs/Apart.antt.) */

/* 1 if the call was refused, else 0. */
static inline int ngulo_is_refused(uint64_t answer)
{
    return (answer & 255) != 0;
}

/* The number of a refusal, of enum ngulo_refusal; NGULO_REFUSAL_NONE if the call was not refused. */
static inline unsigned ngulo_refusal_number(uint64_t answer)
{
    return NGULO_CAST(unsigned, answer & 255);
}

/* The place of a refusal, at most the block's length, and at most NGULO_MAX_RESULT. */
static inline size_t ngulo_refusal_place(uint64_t answer)
{
    return answer >> 8;
}

/* The length of the result, where ngulo_pass was not refused. */
static inline size_t ngulo_result_length(uint64_t answer)
{
    return answer >> 8;
}

/* A refusal's meaning in a few words. */
static inline const char *ngulo_refusal_text(unsigned number)
{
    switch (number) {
    case NGULO_REFUSAL_NONE: return "not refused";
    case NGULO_REFUSAL_RECORD_CUT: return "a record runs past the end";
    case NGULO_REFUSAL_UNKNOWN_KIND: return "unknown kind";
    case NGULO_REFUSAL_BAD_DECLARATION: return "bad or misplaced declaration, or 201st variable";
    case NGULO_REFUSAL_UNDECLARED: return "variable not declared";
    case NGULO_REFUSAL_WRONG_WIDTH: return "an operand has the wrong width";
    case NGULO_REFUSAL_BAD_FIELD: return "bad condition, flags, label, position, length or 32-bit constant";
    case NGULO_REFUSAL_BAD_LABEL: return "label set twice, jumped to after it was set, or never set";
    case NGULO_REFUSAL_UNWRITTEN: return "temporary read before a write in its extended basic block";
    case NGULO_REFUSAL_TOO_MANY_OPS: return "1025th op";
    case NGULO_REFUSAL_NO_EXIT: return "no op, or the last op is not exit_tb";
    case NGULO_REFUSAL_UNFIT_STATE: return "globals or memory do not fit the block";
    case NGULO_REFUSAL_NO_ROOM: return "output buffer shorter than the result";
    default: return "no refusal has this number";
    }
}

/* A report taken apart, after a run that was not refused. */

/* NGULO_ENDING_EXIT, NGULO_ENDING_FAULT or NGULO_ENDING_NO_RESULT. */
static inline unsigned ngulo_report_ending(const uint64_t report[4])
{
    return NGULO_CAST(unsigned, report[NGULO_REPORT_ENDING]);
}

/* The number of ops run: the op that exits or faults counts, the op without a stated result does not. */
static inline uint64_t ngulo_report_count(const uint64_t report[4])
{
    return report[NGULO_REPORT_COUNT];
}

/* After an exit: its value. */
static inline uint64_t ngulo_report_exit_value(const uint64_t report[4])
{
    return report[NGULO_REPORT_DETAIL];
}

/* After a fault: the address. */
static inline uint64_t ngulo_report_fault_address(const uint64_t report[4])
{
    return report[NGULO_REPORT_DETAIL];
}

/* After a fault: 1 for a store, 0 for a load. */
static inline int ngulo_report_fault_is_store(const uint64_t report[4])
{
    return (report[NGULO_REPORT_ACCESS] & NGULO_ACCESS_STORE) != 0;
}

/* After a fault: the access's flags. */
static inline unsigned ngulo_report_fault_flags(const uint64_t report[4])
{
    return NGULO_CAST(unsigned, report[NGULO_REPORT_ACCESS] & 255);
}

/* After a fault: the access's size in bytes. */
static inline unsigned ngulo_report_fault_size(const uint64_t report[4])
{
    return 1u << (report[NGULO_REPORT_ACCESS] & NGULO_FLAG_SIZE);
}

/* After a fault: 1 if the access is a load that sign-extends, else 0. */
static inline int ngulo_report_fault_is_signed(const uint64_t report[4])
{
    return (report[NGULO_REPORT_ACCESS] & NGULO_FLAG_SIGNED) != 0;
}

/* After a fault: 1 if the access is big-endian, 0 if it is little-endian. */
static inline int ngulo_report_fault_is_big_endian(const uint64_t report[4])
{
    return (report[NGULO_REPORT_ACCESS] & NGULO_FLAG_BIG_ENDIAN) != 0;
}

/* After a fault: 1 if the address has to be a multiple of the size, else 0. */
static inline int ngulo_report_fault_requires_alignment(const uint64_t report[4])
{
    return (report[NGULO_REPORT_ACCESS] & NGULO_FLAG_ALIGNED) != 0;
}

/* After a fault: why, NGULO_FAULT_BOUNDS or NGULO_FAULT_ALIGNMENT. */
static inline unsigned ngulo_report_fault_reason(const uint64_t report[4])
{
    return NGULO_CAST(unsigned, report[NGULO_REPORT_ACCESS] / NGULO_ACCESS_REASON);
}

/* A fault's reason in a word. */
static inline const char *ngulo_fault_reason_text(unsigned reason)
{
    switch (reason) {
    case NGULO_FAULT_BOUNDS: return "bounds";
    case NGULO_FAULT_ALIGNMENT: return "alignment";
    default: return "no reason has this number";
    }
}

/* After no stated result: the op's position, counted from 0 among the ops. */
static inline uint64_t ngulo_report_position(const uint64_t report[4])
{
    return report[NGULO_REPORT_DETAIL];
}

#ifdef __cplusplus
}
#endif

#endif
