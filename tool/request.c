#include "request.h"

#include "input.h"
#include "ngulo.h"

#include <string.h>

enum option_number { HEX, PLAIN, OUT, EXPLAIN, NAMES, GLOBAL, MEMORY, MEMORY_FILE, TRACE, DUMP_MEMORY, SEED, RUNS,
                     OFFSETS };

struct option {
    const char *name;
    enum option_number number;
    unsigned needs; /* what the command takes */
    int has_value;
};

static const struct option options[] = {
    {"--hex", HEX, 0, 0},
    {"--plain", PLAIN, TAKES_PLAIN, 0},
    {"-o", OUT, TAKES_OUT, 1},
    {"--output", OUT, TAKES_OUT, 1},
    {"--explain", EXPLAIN, TAKES_OUT, 0},
    {"--names", NAMES, TAKES_NAMES, 1},
    {"--global", GLOBAL, TAKES_STATE, 1},
    {"--memory", MEMORY, TAKES_STATE, 1},
    {"--memory-file", MEMORY_FILE, TAKES_STATE, 1},
    {"--trace", TRACE, TAKES_RUN, 0},
    {"--dump-memory", DUMP_MEMORY, TAKES_RUN, 0},
    {"--seed", SEED, TAKES_SEED, 1},
    {"--runs", RUNS, TAKES_RUNS, 1},
    {"--offsets", OFFSETS, TAKES_OFFSETS, 0},
};

/* The option that a word names, before any =; NULL if the command has none. */
static const struct option *find_option(const struct command *command, const char *word)
{
    size_t length = strncmp(word, "--", 2) == 0 ? strcspn(word, "=") : strlen(word);
    size_t i;

    for (i = 0; i < sizeof options / sizeof options[0]; i += 1) {
        if (strlen(options[i].name) == length && strncmp(options[i].name, word, length) == 0 &&
            (options[i].needs & command->options) == options[i].needs) {
            return &options[i];
        }
    }
    return NULL;
}

static int take_text(const char *option, const char *value, const char **into)
{
    if (*into != NULL) {
        return complain("%s: given twice", option);
    }
    *into = value;
    return STATUS_DONE;
}

static int take_number(const char *option, const char *text, uint64_t *into)
{
    if (!parse_number(text, into)) {
        return complain("%s: '%s' is not a number from 0 to 2^64 - 1, decimal or hex after 0x", option, text);
    }
    return STATUS_DONE;
}

/* A number that is given once. */
static int take_one_number(const char *option, const char *value, const char **text, uint64_t *into)
{
    int status = take_text(option, value, text);

    return status == STATUS_DONE ? take_number(option, value, into) : status;
}

static int take_memory(const char *option, const char *value, struct request *request)
{
    uint64_t length;

    if (take_one_number(option, value, &request->memory_text, &length) != STATUS_DONE) {
        return STATUS_USAGE;
    }
    if (length >= INPUT_LIMIT) {
        return complain("%s: %s is 1 GiB or more", option, value);
    }
    request->memory_length = (size_t)length;
    return STATUS_DONE;
}

static int take_global(const char *option, const char *value, struct request *request)
{
    if (take_number(option, value, &request->globals[request->globals_length]) != STATUS_DONE) {
        return STATUS_USAGE;
    }
    request->globals_length += 1;
    return STATUS_DONE;
}

static int take_option(const struct option *option, const char *value, struct request *request)
{
    switch (option->number) {
    case HEX: request->hex = 1; break;
    case PLAIN: request->plain = 1; break;
    case EXPLAIN: request->explain = 1; break;
    case OFFSETS: request->offsets = 1; break;
    case TRACE: request->trace = 1; break;
    case DUMP_MEMORY: request->dump_memory = 1; break;
    case OUT: return take_text(option->name, value, &request->out);
    case NAMES: return take_text(option->name, value, &request->names);
    case GLOBAL: return take_global(option->name, value, request);
    case MEMORY: return take_memory(option->name, value, request);
    case MEMORY_FILE: return take_text(option->name, value, &request->memory_file);
    case SEED: return take_one_number(option->name, value, &request->seed_text, &request->seed);
    case RUNS: return take_one_number(option->name, value, &request->runs_text, &request->runs);
    }
    return STATUS_DONE;
}

/* An option with its value, which is behind = or the next word. */
static int take_word(const struct command *command, char ***next, char **end, struct request *request)
{
    const char *word = *(*next)++;
    const struct option *option = find_option(command, word);
    const char *value;

    if (option == NULL) {
        return complain("%s: unknown option '%s'; see 'ngulo %s --help'", command->name, word, command->name);
    }
    value = word[strlen(option->name)] == '=' ? word + strlen(option->name) + 1 : NULL;
    if (value != NULL && !option->has_value) {
        return complain("%s: takes no value", option->name);
    }
    if (value == NULL && option->has_value) {
        if (*next == end) {
            return complain("%s: a value is missing", option->name);
        }
        value = *(*next)++;
    }
    return take_option(option, value, request);
}

static int take_file(const struct command *command, const char *file, struct request *request)
{
    if (request->file_count == command->files) {
        return command->files == 1 ? complain("more than one FILE: '%s' and '%s'", request->files[0], file)
                                   : complain("more than two files: '%s'", file);
    }
    request->files[request->file_count] = file;
    request->file_count += 1;
    return STATUS_DONE;
}

static int is_stdin(const char *file)
{
    return file != NULL && strcmp(file, "-") == 0;
}

int has_state(const struct request *request)
{
    return request->globals_length > 0 || request->memory_file != NULL;
}

/* Where seeds are used: if one is given, or with diff if no state is. */
static int judge_seeds(const struct command *command, const struct request *request)
{
    int seeded = request->seed_text != NULL || request->runs_text != NULL;

    if (seeded && has_state(request)) {
        return complain("%s: not with --global or --memory-file", request->seed_text != NULL ? "--seed" : "--runs");
    }
    if (!seeded && (has_state(request) || !(command->options & TAKES_RUNS))) {
        return STATUS_DONE;
    }
    if (request->memory_length > NGULO_MAX_MEMORY) {
        return complain("--memory: at most %d with seeds", NGULO_MAX_MEMORY);
    }
    return request->runs_text != NULL && request->runs == 0 ? complain("--runs: 0 runs show nothing") : STATUS_DONE;
}

/* What the arguments leave open or ask twice. */
static int judge(const struct command *command, const struct request *request)
{
    if (request->file_count < command->files) {
        return complain("%s: %s given; see 'ngulo %s --help'", command->name,
                        command->files == 1        ? "no FILE"
                        : request->file_count == 0 ? "no files"
                                                   : "one file",
                        command->name);
    }
    if (request->memory_text != NULL && request->memory_file != NULL) {
        return complain("--memory and --memory-file: only one of them can be given");
    }
    if (is_stdin(request->files[0]) + is_stdin(request->files[1]) + is_stdin(request->memory_file) > 1) {
        return complain("standard input can only be one of %s and --memory-file",
                        command->files == 1 ? "FILE" : "A, B");
    }
    if (request->out != NULL && request->out[0] == '\0') {
        return complain("-o: the name of OUT is empty");
    }
    if (request->names != NULL && command->options & TAKES_OUT && !request->explain) {
        return complain("--names: only with --explain");
    }
    if (request->names != NULL && request->offsets) {
        return complain("--names: not with --offsets");
    }
    return judge_seeds(command, request);
}

int read_request(const struct command *command, char **next, char **end, struct request *request)
{
    int options_end = 0;

    while (next != end) {
        int status;

        if (!options_end && strcmp(*next, "--") == 0) {
            options_end = 1;
            next += 1;
            continue;
        }
        if (!options_end && (*next)[0] == '-' && (*next)[1] != '\0') {
            status = take_word(command, &next, end, request);
        } else {
            status = take_file(command, *next++, request);
        }
        if (status != STATUS_DONE) {
            return status;
        }
    }
    return judge(command, request);
}
