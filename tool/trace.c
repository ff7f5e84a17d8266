#include "trace.h"

#include "listing.h"
#include "probe.h"

#include <inttypes.h>
#include <stdio.h>
#include <string.h>

/* Where a traced run stands. */
struct machine {
    struct columns columns;
    uint64_t values[NGULO_MAX_VARIABLES];
    uint8_t *memory;
    size_t memory_length;
    unsigned position;
    int jumps; /* the op just run goes on at its label */
    uint64_t report[NGULO_REPORT_LENGTH];
};

/*
 * The op, and an exit after it. A branch has its label there, and brcond an op before the label, so that the count
 * tells which way it went: brcond, set_label and exit_tb are three.
 */
static void make_probe(struct probe *probe, const struct records *block, const uint8_t *op)
{
    uint8_t exit_operand = last_op(block)[1];
    uint8_t skipped[3];
    uint8_t label[2];

    skipped[0] = NGULO_KIND_MOV_I64;
    skipped[1] = exit_operand;
    skipped[2] = exit_operand;
    label[0] = NGULO_KIND_SET_LABEL;
    label[1] = label_of(op);
    start_probe(probe, block);
    add_record(probe, op);
    if (is_brcond(op[0])) {
        add_record(probe, skipped);
    }
    if (is_brcond(op[0]) || op[0] == NGULO_KIND_BR) {
        add_record(probe, label);
    }
    if (op[0] != NGULO_KIND_EXIT_TB) {
        add_record(probe, last_op(block));
    }
}

/* Runs the op at the machine's position. Answers 1 if the run goes on after it. */
static int run_op(const struct records *block, struct machine *m)
{
    const uint8_t *op = op_at(block, m->position);
    struct probe probe;
    uint64_t answer;

    make_probe(&probe, block, op);
    answer = ngulo_run_nullable(probe.bytes, probe.length, m->values, block->variables, m->memory, m->memory_length,
                                m->report);
    m->jumps = op[0] == NGULO_KIND_BR || (is_brcond(op[0]) && ngulo_report_count(m->report) == 3);
    return !ngulo_is_refused(answer) && ngulo_report_ending(m->report) == NGULO_ENDING_EXIT &&
           op[0] != NGULO_KIND_EXIT_TB;
}

static unsigned next_position(const struct records *block, const struct machine *m)
{
    uint8_t label = label_of(op_at(block, m->position));
    unsigned next = m->position + 1;

    while (m->jumps && !(op_at(block, next)[0] == NGULO_KIND_SET_LABEL && op_at(block, next)[1] == label)) {
        next += 1;
    }
    return next;
}

static void print_value(unsigned variable, const char *names, const struct machine *m)
{
    print_variable(variable, names);
    printf(" = 0x%" PRIx64, m->values[variable]);
}

/* The values of the op's inputs, before it runs. */
static void print_reads(const uint8_t *op, const char *names, const struct machine *m)
{
    const struct shape *shape = shape_of(op[0]);
    unsigned k;

    for (k = 0; k < shape->inputs; k += 1) {
        fputs(k == 0 ? "" : ", ", stdout);
        print_value(op[1 + shape->outputs + k], names, m);
    }
    fputs(shape->inputs == 0 ? "" : " -> ", stdout);
}

/* The bytes that a store has written: the address is its second input. */
static void print_stored(const uint8_t *op, const struct machine *m)
{
    uint64_t address = m->values[op[2]];
    unsigned size = 1u << (op[3] & NGULO_FLAG_SIZE);
    unsigned k;

    printf("memory 0x%04" PRIx64 " =", address);
    for (k = 0; k < size; k += 1) {
        printf(" %02x", (unsigned)m->memory[address + k]);
    }
}

/* What the op wrote, or where it went. */
static void print_writes(const struct records *block, const char *names, const struct machine *m, int goes_on)
{
    const uint8_t *op = op_at(block, m->position);

    if (!goes_on && ngulo_report_ending(m->report) == NGULO_ENDING_FAULT) {
        printf("fault (%s)", ngulo_fault_reason_text(ngulo_report_fault_reason(m->report)));
    } else if (!goes_on) {
        fputs(op[0] == NGULO_KIND_EXIT_TB ? "exit" : "no stated result", stdout);
    } else if (shape_of(op[0])->outputs == 1) {
        print_value(op[1], names, m);
    } else if (is_access(op[0])) {
        print_stored(op, m);
    } else if (m->jumps) {
        printf("jumps to op %u", next_position(block, m));
    } else {
        fputs(is_brcond(op[0]) ? "does not jump" : "goes on", stdout);
    }
}

static int trace_op(const struct records *block, const char *names, struct machine *m)
{
    const uint8_t *op = op_at(block, m->position);
    int goes_on;

    print_op(&m->columns, m->position, op);
    print_reads(op, names, m);
    goes_on = run_op(block, m);
    print_writes(block, names, m, goes_on);
    putchar('\n');
    return goes_on;
}

void trace_run(const struct records *block, const char *names, uint64_t *globals, uint8_t *memory, size_t memory_length,
               uint64_t report[4])
{
    struct machine m;
    uint64_t count = 0;
    int goes_on;

    memset(&m, 0, sizeof m);
    m.columns = measure_ops(block);
    memcpy(m.values, globals, block->globals * sizeof *globals);
    m.memory = memory;
    m.memory_length = memory_length;
    do {
        goes_on = trace_op(block, names, &m);
        count += goes_on || ngulo_report_ending(m.report) != NGULO_ENDING_NO_RESULT;
        if (goes_on) {
            m.position = next_position(block, &m);
        }
    } while (goes_on);
    memcpy(globals, m.values, block->globals * sizeof *globals);
    memcpy(report, m.report, sizeof m.report);
    report[NGULO_REPORT_COUNT] = count;
    if (ngulo_report_ending(report) == NGULO_ENDING_NO_RESULT) {
        report[NGULO_REPORT_DETAIL] = m.position;
    }
}
