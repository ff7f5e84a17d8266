/* ngulo: checks, lists, runs, optimises and compares blocks from the command line. */
#include "commands.h"
#include "input.h"
#include "ngulo.h"

#include <inttypes.h>
#include <stdio.h>
#include <stdlib.h>
#include <string.h>

#define FILE_AND_HEX \
    "  FILE             the block; - is standard input\n" \
    "  --hex            FILE is hex text: two digits a byte, white space or none between\n" \
    "                   bytes, # starts a comment that ends with the line\n"
#define NAMES "  --names A,B,...  names of the globals, from global 0 on, to stand beside them\n"
#define PLAIN "  --plain          the bare line, for scripts: "
#define STATE \
    "  --global V       the next global's value, from global 0 on. Give one for each\n" \
    "                   global the block declares: none is filled in (refusal 11)\n" \
    "  --memory N       lend N bytes: of zero, or by the seed. Without it and F no memory,\n" \
    "                   or as much as the seed says\n" \
    "  --memory-file F  lend the bytes of F, always raw; F itself stays as it is\n"
#define NUMBERS "\nNumbers are decimal, or hex after 0x, from 0 to 2^64 - 1. --option=VALUE works too.\n"

static const struct command commands[] = {
    {"check", command_check, 1, TAKES_PLAIN,
     "usage: ngulo check FILE [--plain] [--hex]\n"
     "\n"
     "Says 'accepted', or which rule is broken first and where:\n"
     "  block.hex: refusal 7 at 31: label set twice, ...\n"
     "with the record that it is about, and what is wrong with it, on the next line.\n"
     "\n" FILE_AND_HEX PLAIN "'refusal 7 at 31'\n"},
    {"list", command_list, 1, TAKES_PLAIN | TAKES_NAMES | TAKES_OFFSETS,
     "usage: ngulo list FILE [--names A,B,... | --offsets] [--plain] [--hex]\n"
     "\n"
     "Writes the block as text, a record a line: its name, then its fields. Variables\n"
     "are v and constants $, as in 'brcond_i32 v2, v1, $1, $0'.\n"
     "A refused block is answered on standard error.\n"
     "\n" FILE_AND_HEX NAMES
     "  --offsets        before each record the place where it starts, and an op's\n"
     "                   position; a refused block is listed up to the refusal's place\n" PLAIN "'refusal 7 at 31'\n"},
    {"run", command_run, 1, TAKES_PLAIN | TAKES_NAMES | TAKES_STATE | TAKES_RUN | TAKES_SEED,
     "usage: ngulo run FILE [--global V]... [--memory N | --memory-file F]\n"
     "       ngulo run FILE --seed S [--memory N]\n"
     "                 [--trace] [--names A,B,...] [--dump-memory] [--plain] [--hex]\n"
     "\n"
     "Says how the run ended, in one line of these:\n"
     "  exit 0x2a after 5 ops\n"
     "  fault after 3 ops: store of 4 bytes at 0x10, ...: it reaches past the end of ...\n"
     "  fault after 3 ops: load of 4 bytes at 0xd, ...: 0xd is no multiple of 4\n"
     "  no stated result at op 4 after 2 ops: divu_i64 v0, v0, v1: the divisor is zero\n"
     "  block.hex: refusal 11 at 0: globals or memory do not fit the block: ...\n"
     "Unless it was refused, the globals follow, one a line.\n"
     "\n" FILE_AND_HEX STATE
     "  --seed S         the globals and memory that 'ngulo diff' makes of seed S\n"
     "  --trace          before that, a line for each op as it runs, with the values that\n"
     "                   it read and wrote\n" NAMES
     "  --dump-memory    show the memory after the run, 16 bytes a line\n" PLAIN "these\n"
     "                   exit 0x2a after 5 ops\n"
     "                   fault store at 0x10 flags 0x02 (bounds) after 3 ops\n"
     "                   fault load at 0xd flags 0x12 (alignment) after 3 ops\n"
     "                   no stated result at op 4 after 2 ops\n"
     "                   refusal 11 at 0\n" NUMBERS},
    {"opt", command_opt, 1, TAKES_PLAIN | TAKES_NAMES | TAKES_OUT,
     "usage: ngulo opt FILE [-o OUT] [--explain] [--names A,B,...] [--plain] [--hex]\n"
     "\n"
     "Writes the optimised block to standard output, or to OUT. A refused block is\n"
     "answered on standard error. After any failure OUT is as it was.\n"
     "\n" FILE_AND_HEX
     "                   The result is hex text then too\n"
     "  -o OUT           where the result goes, also --output; - is standard output\n"
     "  --explain        say for each op what it was folded to, or that its inputs are known\n"
     "                   but no result is stated, and whether it was kept; of pure ops, loads\n"
     "                   and stores also why; the block is then written to OUT alone\n" NAMES PLAIN
     "'refusal 7 at 31'\n"},
    {"diff", command_diff, 2, TAKES_PLAIN | TAKES_STATE | TAKES_SEED | TAKES_RUNS,
     "usage: ngulo diff A B [--seed S] [--runs N] [--memory N] [--plain] [--hex]\n"
     "       ngulo diff A B --global V... [--memory N | --memory-file F] [--plain] [--hex]\n"
     "\n"
     "Runs two blocks on the same globals and memory, and says the first thing in which\n"
     "B differs from A: the ending, a global, the memory; or that B runs more ops. Without\n"
     "--global and --memory-file, on those of 1000 seeds: edge values, and memories of at\n"
     "most 64, 4096 or 65536 bytes. Where A meets an op without a stated result nothing is\n"
     "asked of B.\n"
     "\n"
     "  A, B             the blocks, say one and what your own pass made of it\n"
     "  --hex            both are hex text\n" STATE
     "  --seed S         the first seed, 1 if not given\n"
     "  --runs N         how many seeds, one after the other, 1000 if not given\n" PLAIN "'B: refusal 7 at 31'\n"
     "\n"
     "Exit status: 0 no difference, 1 a difference or a refusal, 2 nothing compared (A\n"
     "always met an op without a stated result), or anything else.\n" NUMBERS},
};

static const char overview[] =
    "usage: ngulo check FILE                 is the block accepted, and if not, why\n"
    "       ngulo list FILE                  the block as text\n"
    "       ngulo run FILE [--trace]         what the block does\n"
    "       ngulo opt FILE [--explain]       the optimised block, or what became of each op\n"
    "       ngulo diff A B                   do two blocks do the same\n"
    "       ngulo help COMMAND               a command's options\n"
    "       ngulo --version\n"
    "\n"
    "Checks, lists, runs, optimises and compares blocks of TCG ops. FILE is raw bytes, or hex\n"
    "text with --hex; - is standard input. FORMAT.md (in docs/ or share/doc/ngulo/) says what\n"
    "a block is.\n"
    "Exit status: 0 done, 1 refused or different, 2 anything else (usage, files, numbers).\n"
    "\n"
    "Refusals:\n";

static int say_overview(void)
{
    unsigned number;

    fputs(overview, stdout);
    for (number = NGULO_REFUSAL_RECORD_CUT; number <= NGULO_REFUSAL_NO_ROOM; number += 1) {
        printf("  %2u  %s\n", number, ngulo_refusal_text(number));
    }
    return STATUS_DONE;
}

static int say_version(void)
{
    uint64_t version = ngulo_version();

    printf("ngulo %s, library %" PRIu64 ".%" PRIu64 ".%" PRIu64 "\n", NGULO_VERSION, version / 65536,
           version / 256 % 256, version % 256);
    return STATUS_DONE;
}

static const struct command *find_command(const char *name)
{
    size_t i;

    for (i = 0; i < sizeof commands / sizeof commands[0]; i += 1) {
        if (strcmp(name, commands[i].name) == 0) {
            return &commands[i];
        }
    }
    return NULL;
}

static int carry_out(const struct command *command, char **next, char **end)
{
    struct request request;
    int status;

    memset(&request, 0, sizeof request);
    request.globals = (uint64_t *)calloc((size_t)(end - next) + 1, sizeof *request.globals);
    if (request.globals == NULL) {
        return complain("out of memory");
    }
    status = read_request(command, next, end, &request);
    if (status == STATUS_DONE) {
        status = command->carry_out(&request);
    }
    free(request.globals);
    return status;
}

static int is_help(const char *word)
{
    return strcmp(word, "--help") == 0 || strcmp(word, "-h") == 0;
}

/* Is there a --help before any --? */
static int asks_help(char **next, char **end)
{
    for (; next != end && strcmp(*next, "--") != 0; next += 1) {
        if (is_help(*next)) {
            return 1;
        }
    }
    return 0;
}

static int say_help(const char *name)
{
    const struct command *command = find_command(name);

    if (command == NULL) {
        return complain("unknown command '%s'; see 'ngulo --help'", name);
    }
    fputs(command->help, stdout);
    return STATUS_DONE;
}

static int answer(int argc, char **argv)
{
    if (argc < 2) {
        return complain("no command given; see 'ngulo --help'");
    }
    if (is_help(argv[1]) ||
        (strcmp(argv[1], "help") == 0 && (argc == 2 || is_help(argv[2]) || strcmp(argv[2], "help") == 0))) {
        return say_overview();
    }
    if (strcmp(argv[1], "--version") == 0) {
        return argc == 2 ? say_version() : complain("--version: nothing goes with it");
    }
    if (strcmp(argv[1], "help") == 0) {
        return argc == 3 ? say_help(argv[2]) : complain("help: of one command at a time");
    }
    if (find_command(argv[1]) == NULL || asks_help(argv + 2, argv + argc)) {
        return say_help(argv[1]);
    }
    return carry_out(find_command(argv[1]), argv + 2, argv + argc);
}

int main(int argc, char **argv)
{
    return finish(answer(argc, argv));
}
