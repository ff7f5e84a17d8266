/*
 * The incident: a home-made clean-up pass dropped a write as useless, because a later op overwrites it. A store
 * between the two faulted, so the later op never ran, and one student's job setting became everybody's default.
 *
 * Reads the jobs from a folder (samples) and runs them: the job as it was written, as the home-made pass left it and as
 * ngulo_pass left it; after each a later user's job. Then the job as a controller that traps on odd addresses has it,
 * and the other mistakes of that sort, a sample each.
 * Answers 0 if ngulo_pass's blocks do what the originals do, the home-made ones do not, and ngulo_pass's block of the
 * incident is the shortest.
 */
#include "../tool/explain.h"
#include "../tool/input.h"
#include "../tool/listing.h"
#include "blocks.h"
#include "homemade.h"
#include "mistakes.h"

#include <stdio.h>
#include <string.h>

enum { ADDRESS, SETTING, SAVED, RESTORE_DUE, GLOBALS };
enum { ORIGINAL, HOMEMADE, OURS, BLOCKS };
enum { MEMORY = 16, DEFAULT_SETTING = 5, LATER_ADDRESS = 4 };

static const char *const block_names[] = {"original", "home-made", "ngulo_pass"};
static const char global_names[] = "address,setting,saved,restore_due";

/* The student's job in three forms, what became of its ops in each, and the later job. */
struct story {
    struct block jobs[BLOCKS];
    struct records original;
    struct fate fates[BLOCKS][NGULO_MAX_OPS];
    struct block later;
};

/* The printer: what jobs leave is what the next one finds. */
struct printer {
    uint64_t report[NGULO_REPORT_LENGTH];
    uint64_t globals[GLOBALS];
    uint8_t memory[MEMORY];
};

/* Runs a job that stores its setting at this address. Answers 1, or 0 if it was refused. */
static int run_job(struct printer *printer, const struct block *job, uint64_t address)
{
    uint64_t answer;

    printer->globals[ADDRESS] = address;
    answer = ngulo_run(job->bytes, job->length, printer->globals, GLOBALS, printer->memory, MEMORY, printer->report);
    return !ngulo_is_refused(answer);
}

/* The bench after each job: puts the saved setting back if the job stopped before it could. */
static void bench_clean_up(struct printer *printer)
{
    if (printer->globals[RESTORE_DUE] != 0) {
        printer->globals[SETTING] = printer->globals[SAVED];
        printer->globals[RESTORE_DUE] = 0;
    }
}

/* The cells of a row, one for each form of the job. */
struct row {
    char cell[BLOCKS][32];
};

/* Prints a row and marks the cells that differ from the original's. Answers which do, a bit each. */
static unsigned print_row(const char *title, const struct row *row)
{
    unsigned differ = 0;
    int i;

    printf("  %-27s", title);
    for (i = 0; i < BLOCKS; i += 1) {
        int differs = strcmp(row->cell[i], row->cell[ORIGINAL]) != 0;
        int width = i + 1 == BLOCKS ? 0 : 18 - (int)strlen(row->cell[i]);

        printf("%s%*s", row->cell[i], differs ? -width : width, differs ? " (!)" : "");
        differ |= (unsigned)differs << i;
    }
    putchar('\n');
    return differ;
}

static unsigned print_endings(const struct printer printers[BLOCKS])
{
    struct row row;
    int i;

    for (i = 0; i < BLOCKS; i += 1) {
        const uint64_t *report = printers[i].report;

        if (ngulo_report_ending(report) == NGULO_ENDING_EXIT) {
            snprintf(row.cell[i], sizeof row.cell[i], "exit %u", (unsigned)ngulo_report_exit_value(report));
        } else if (ngulo_report_ending(report) == NGULO_ENDING_FAULT) {
            snprintf(row.cell[i], sizeof row.cell[i], "fault at 0x%x", (unsigned)ngulo_report_fault_address(report));
        } else if (ngulo_report_ending(report) == NGULO_ENDING_NO_RESULT) {
            snprintf(row.cell[i], sizeof row.cell[i], "no stated result");
        } else {
            snprintf(row.cell[i], sizeof row.cell[i], "another ending");
        }
    }
    return print_row("the job's ending", &row);
}

/* The reasons of faults, where the original has one. */
static unsigned print_reasons(const struct printer printers[BLOCKS])
{
    struct row row;
    int i;

    if (ngulo_report_ending(printers[ORIGINAL].report) != NGULO_ENDING_FAULT) {
        return 0;
    }
    for (i = 0; i < BLOCKS; i += 1) {
        const uint64_t *report = printers[i].report;
        int faults = ngulo_report_ending(report) == NGULO_ENDING_FAULT;

        snprintf(row.cell[i], sizeof row.cell[i], "%s",
                 faults ? ngulo_fault_reason_text(ngulo_report_fault_reason(report)) : "none");
    }
    return print_row("the fault's reason", &row);
}

static unsigned print_global(const char *title, const struct printer printers[BLOCKS], int global)
{
    struct row row;
    int i;

    for (i = 0; i < BLOCKS; i += 1) {
        snprintf(row.cell[i], sizeof row.cell[i], "%u", (unsigned)printers[i].globals[global]);
    }
    return print_row(title, &row);
}

/* What the later job stored: four bytes, little-endian. */
static unsigned print_later(const struct printer printers[BLOCKS])
{
    struct row row;
    int i;

    for (i = 0; i < BLOCKS; i += 1) {
        const uint8_t *stored = printers[i].memory + LATER_ADDRESS;

        snprintf(row.cell[i], sizeof row.cell[i], "%u",
                 stored[0] + 256u * stored[1] + 65536u * stored[2] + 16777216u * stored[3]);
    }
    return print_row("the later user's time-out", &row);
}

/* Ops run may be fewer after a pass, and are no difference to mark. */
static void print_counts(const struct printer printers[BLOCKS])
{
    printf("  %-27s%-18u%-18u%u\n", "ops run", (unsigned)ngulo_report_count(printers[ORIGINAL].report),
           (unsigned)ngulo_report_count(printers[HOMEMADE].report),
           (unsigned)ngulo_report_count(printers[OURS].report));
}

/* Which printers differ from the original's in what no row shows: the whole report but the count, and memory. */
static unsigned differ_elsewhere(const struct printer printers[BLOCKS])
{
    unsigned differ = 0;
    size_t shown = NGULO_REPORT_COUNT * sizeof printers[0].report[0];
    int i;

    for (i = 0; i < BLOCKS; i += 1) {
        int differs = memcmp(printers[i].report, printers[ORIGINAL].report, shown) != 0 ||
                      memcmp(printers[i].memory, printers[ORIGINAL].memory, MEMORY) != 0;

        differ |= (unsigned)differs << i;
    }
    return differ;
}

/*
 * The student's job at this address on three printers, then the later job. Answers which printers differ, a bit each,
 * and gives those on which the later user's time-out does.
 */
static unsigned print_day(const struct story *story, uint64_t address, unsigned *later)
{
    struct printer printers[BLOCKS];
    unsigned differ;
    int refused = 0;
    int i;

    memset(printers, 0, sizeof printers);
    for (i = 0; i < BLOCKS; i += 1) {
        printers[i].globals[SETTING] = DEFAULT_SETTING;
        refused += !run_job(&printers[i], &story->jobs[i], address);
    }
    printf("  %-27s%-18s%-18s%s\n", "", block_names[ORIGINAL], block_names[HOMEMADE], block_names[OURS]);
    differ = print_endings(printers);
    differ |= print_reasons(printers) | differ_elsewhere(printers);
    print_counts(printers);
    differ |= print_global("setting", printers, SETTING);
    differ |= print_global("saved", printers, SAVED);
    differ |= print_global("restore_due", printers, RESTORE_DUE);
    for (i = 0; i < BLOCKS; i += 1) {
        bench_clean_up(&printers[i]);
    }
    differ |= print_global("setting after clean-up", printers, SETTING);
    for (i = 0; i < BLOCKS; i += 1) {
        refused += !run_job(&printers[i], &story->later, LATER_ADDRESS);
    }
    *later = print_later(printers);
    return refused == 0 ? differ | *later : ~0u;
}

/* The ops that the home-made pass dropped and ngulo_pass kept. Answers how many. */
static unsigned print_lost(const struct story *story)
{
    char text[LISTING_SIZE];
    unsigned lost = 0;
    unsigned i;

    for (i = 0; i < story->original.ops; i += 1) {
        if (!story->fates[HOMEMADE][i].kept && story->fates[OURS][i].kept && !story->fates[OURS][i].folded) {
            list_record(op_at(&story->original, i), text);
            printf("  op %u, %s, writes ", i, text);
            print_variable(op_at(&story->original, i)[1], global_names);
            putchar('\n');
            lost += 1;
        }
    }
    return lost;
}

static const char opening[] =
    "A printer's jobs share a time-out, and 5 is everybody's default. A student's job has the command\n"
    "    SET TIMEOUT=42\n"
    "which is to hold for that job alone. The controller's block for it saves the setting, notes that a\n"
    "restore is due, sets 42, stores it at the address that the job gives, and puts the old setting back.\n"
    "If a block stops half way while a restore is due, the bench does the restore. Then a later user's job\n"
    "comes, which has no such command: its block stores the setting as it finds it.\n";

static const char closing[] =
    "\n"
    "The store faulted, so the op that overwrites restore_due never ran, and the bench saw nothing to restore:\n"
    "one student's setting became everybody's default. The block of ngulo_pass is the shortest, and leaves what\n"
    "the original leaves.\n";

static int unexpected(void)
{
    puts("\nThis is not what the demonstration should show.");
    return STATUS_REFUSED;
}

/* Answers 1 if the incident went as it should. */
static int tell_incident(const struct story *story)
{
    unsigned served;
    unsigned faulting;
    unsigned later;

    fputs(opening, stdout);
    puts("\nWhat the home-made pass did with the student's block:");
    print_fates(&story->original, story->fates[HOMEMADE], global_names);
    puts("\nWhat ngulo_pass did with it:");
    print_fates(&story->original, story->fates[OURS], global_names);
    puts("\nSET TIMEOUT=42 at 0x8, within the memory: the store is served. (!) marks what differs from the original.");
    served = print_day(story, 0x8, &later);
    puts("\nSET TIMEOUT=42 at 0x1000, past the memory: the store faults.");
    faulting = print_day(story, 0x1000, &later);
    puts("\nDropped by the home-made pass and kept by ngulo_pass:");
    if (print_lost(story) != 1 || served != 0 || faulting != 1u << HOMEMADE || later != faulting ||
        story->jobs[OURS].length >= story->jobs[HOMEMADE].length) {
        return 0;
    }
    fputs(closing, stdout);
    return 1;
}

/* The same where the store has to be aligned: it faults within the memory. */
static int tell_aligned(const struct story *story)
{
    unsigned faulting;
    unsigned later;

    puts("\nA newer controller traps on odd addresses: its store has to be aligned (samples/unaligned.hex).\n"
         "SET TIMEOUT=42 at 0x9, within the memory, but no multiple of 4: the store faults too.");
    faulting = print_day(story, 0x9, &later);
    return faulting == 1u << HOMEMADE && later == faulting;
}

static int tell(const struct story *incident, const struct story *aligned, const char *folder)
{
    int status;

    if (!tell_incident(incident) || !tell_aligned(aligned)) {
        return unexpected();
    }
    puts("\nOther mistakes of this sort, each on a block of samples/mistakes, with 16 bytes of memory:");
    status = tell_mistakes(folder);
    return status == STATUS_REFUSED ? unexpected() : status;
}

/* The story of a job of the folder. */
static int prepare(struct story *story, const char *folder, const char *name)
{
    struct records result;
    struct printer trial;
    int i;

    memset(&trial, 0, sizeof trial);
    if (load_block(folder, name, &story->jobs[ORIGINAL]) != STATUS_DONE ||
        load_block(folder, "later-job.hex", &story->later) != STATUS_DONE ||
        optimise(&story->jobs[ORIGINAL], &story->jobs[OURS]) != STATUS_DONE) {
        return STATUS_USAGE;
    }
    if (!run_job(&trial, &story->jobs[ORIGINAL], 0) || !run_job(&trial, &story->later, 0)) {
        return complain("%s: the jobs are not those of the incident", folder);
    }
    story->jobs[HOMEMADE].length =
        homemade_pass(story->jobs[ORIGINAL].bytes, story->jobs[ORIGINAL].length, story->jobs[HOMEMADE].bytes);
    cut_block(story->jobs[ORIGINAL].bytes, story->jobs[ORIGINAL].length, &story->original);
    for (i = HOMEMADE; i < BLOCKS; i += 1) {
        start_fates(&story->original, story->fates[i]);
        if (i == OURS) {
            find_forms(&story->original, story->fates[i]);
        }
        cut_block(story->jobs[i].bytes, story->jobs[i].length, &result);
        if (!find_kept(&story->original, &result, story->fates[i])) {
            return complain("%s: the result is not what is left of the job", block_names[i]);
        }
    }
    return STATUS_DONE;
}

int main(int argc, char **argv)
{
    static struct story incident;
    static struct story aligned;
    int status;

    if (argc != 2) {
        return complain("usage: incident FOLDER, the samples");
    }
    status = prepare(&incident, argv[1], "incident.hex");
    if (status == STATUS_DONE) {
        status = prepare(&aligned, argv[1], "unaligned.hex");
    }
    if (status == STATUS_DONE) {
        status = tell(&incident, &aligned, argv[1]);
    }
    return finish(status);
}
