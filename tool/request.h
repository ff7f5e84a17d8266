/* What the arguments of a command ask for. */
#ifndef NGULO_REQUEST_H
#define NGULO_REQUEST_H

#include <stddef.h>
#include <stdint.h>

struct request {
    const char *files[2];
    unsigned file_count;
    int hex;
    int plain;
    int explain;
    int offsets;
    int trace;
    int dump_memory;
    const char *out;          /* NULL or "-" for standard output */
    const char *names;        /* of globals, with commas between; NULL for none */
    uint64_t *globals;
    size_t globals_length;
    const char *memory_file;  /* NULL for zero bytes */
    const char *memory_text;  /* the other texts: NULL if not given */
    size_t memory_length;
    const char *seed_text;
    uint64_t seed;
    const char *runs_text;
    uint64_t runs;
};

/* The options, as bits of what a command takes. */
enum {
    TAKES_PLAIN = 1,
    TAKES_OUT = 2,      /* -o and --explain */
    TAKES_NAMES = 4,
    TAKES_STATE = 8,    /* --global, --memory, --memory-file */
    TAKES_RUN = 16,     /* --trace, --dump-memory */
    TAKES_SEED = 32,
    TAKES_RUNS = 64,
    TAKES_OFFSETS = 128
};

/* A command: how many files and which options it takes. All take --hex. */
struct command {
    const char *name;
    int (*carry_out)(const struct request *request);
    unsigned files;
    unsigned options;
    const char *help;
};

/* Are globals or the memory's bytes given, and not left to seeds? */
int has_state(const struct request *request);

/*
 * Reads the arguments of a command, whose globals have room for as many values as there are words. Answers a status;
 * what is wrong with them is said on standard error.
 */
int read_request(const struct command *command, char **next, char **end, struct request *request);

#endif
