/*
 * The library beside plain C.
 *
 * Checks that both do the same in every row, times them in turn and prints
 * tables. README.md in this folder says how it is measured.
 */
#include <stdbool.h>
#include <stdio.h>
#include <string.h>

#include "agree.h"
#include "measure.h"
#include "rows.h"
#include "table.h"

/* What plain.c is compiled by. */
#ifndef BENCH_PLAIN
#define BENCH_PLAIN "unknown"
#endif

/* Every row is visited so many times, and measured for so many seconds on each visit. */
struct pace {
    unsigned visits;
    double case_seconds;
    double growth_seconds;
};

static const struct pace thorough = { 16, 0.1, 0.025 };
static const struct pace quick = { 4, 0.02, 0.006 };

struct options {
    const struct pace *pace;
    const char *instructions;
    bool agree;
    bool count;
};

/* Two scenes for the check, one of them for the rest; too large for the stack. */
static struct scene scenes[2];
static struct results results;

static int usage(void)
{
    fprintf(stderr, "usage: bench [--quick] [--instructions FILE]\n"
                    "       bench --agree\n"
                    "       bench --count\n\n"
                    "  --quick               a few seconds, and less exact\n"
                    "  --instructions FILE   instructions a call: for each case the library's\n"
                    "                        number, then plain C's\n"
                    "  --agree               only checks that both leave the same in every row\n"
                    "  --count               only makes the calls, for callgrind to count them\n");
    return 2;
}

static bool read_options(struct options *options, int argc, char **argv)
{
    for (int i = 1; i < argc; i++) {
        if (strcmp(argv[i], "--quick") == 0)
            options->pace = &quick;
        else if (strcmp(argv[i], "--agree") == 0)
            options->agree = true;
        else if (strcmp(argv[i], "--count") == 0)
            options->count = true;
        else if (strcmp(argv[i], "--instructions") == 0 && i + 1 < argc)
            options->instructions = argv[++i];
        else
            return false;
    }
    return true;
}

/* Makes the calls on a ring of each case by both, and prints how many they are. */
static void count(void)
{
    for (int i = 0; i < CASE_ROWS; i++)
        for (int by = LIBRARY; by <= PLAIN; by++) {
            scene_make(&scenes[0], &results.cases[i].row, 0);
            drain_ring(&scenes[0], 0, &calls_of[by]);
            printf("%u\n", (unsigned)scenes[0].calls);
        }
}

/* Reads the numbers of instructions, if there are any. */
static void read_instructions(const char *name)
{
    FILE *file = name == NULL ? NULL : fopen(name, "r");

    if (file == NULL)
        return;
    for (int i = 0; i < CASE_ROWS; i++)
        for (int by = LIBRARY; by <= PLAIN; by++)
            if (fscanf(file, "%lf", &results.cases[i].instructions[by]) != 1)
                results.cases[i].instructions[by] = 0;
    fclose(file);
}

static bool rows_agree(const struct result *rows, int rows_count)
{
    for (int i = 0; i < rows_count; i++)
        if (!agree(scenes, &rows[i].row))
            return false;
    return true;
}

static bool all_agree(void)
{
    return rows_agree(results.cases, CASE_ROWS) && rows_agree(results.slots, SLOT_ROWS) &&
           rows_agree(results.transmit, BYTE_ROWS) && rows_agree(results.receive, BYTE_ROWS);
}

static void visit(struct result *rows, int rows_count, unsigned place, double seconds)
{
    for (int i = 0; i < rows_count; i++)
        measure(&scenes[0], &rows[i], place, seconds);
}

static void measure_all(const struct pace *pace)
{
    for (unsigned i = 0; i < pace->visits; i++) {
        visit(results.cases, CASE_ROWS, i, pace->case_seconds);
        visit(results.slots, SLOT_ROWS, i, pace->growth_seconds);
        visit(results.transmit, BYTE_ROWS, i, pace->growth_seconds);
        visit(results.receive, BYTE_ROWS, i, pace->growth_seconds);
    }
}

int main(int argc, char **argv)
{
    struct options options = { .pace = &thorough };

    if (!read_options(&options, argc, argv))
        return usage();
    rows_describe(&results);
    if (options.count) {
        count();
        return 0;
    }
    read_instructions(options.instructions);
    if (!all_agree())
        return 1;
    if (options.agree) {
        printf("bench: %d rows agree\n", CASE_ROWS + SLOT_ROWS + 2 * BYTE_ROWS);
        return 0;
    }
    stay();
    measure_all(options.pace);
    printf("plain C: %s\n\n", BENCH_PLAIN);
    print_cases(&results);
    print_growth(&results);
    print_worst(&results);
    return 0;
}
