#include "table.h"

#include <stdio.h>

static double ratio(const struct result *result)
{
    return best(&result->times[LIBRARY]) / best(&result->times[PLAIN]);
}

static double median_ratio(struct result *result)
{
    return median(&result->times[LIBRARY]) / median(&result->times[PLAIN]);
}

/* A number, or a dash for one that is not known. */
static void print_number(int width, int digits, double number)
{
    if (number > 0)
        printf("%*.*f", width, digits, number);
    else
        printf("%*s", width, "-");
}

static void print_case(struct result *result)
{
    struct times *times = result->times;
    int copies = times[MEMCPY].count > 0;

    printf("%-25s", result->row.name);
    for (int i = LIBRARY; i <= PLAIN; i++)
        printf("%10.1f%8.1f", best(&times[i]), median(&times[i]));
    printf("%8.2f%7.2f", ratio(result), median_ratio(result));
    print_number(9, 1, copies ? best(&times[MEMCPY]) : 0);
    for (int i = LIBRARY; i <= MEMCPY; i++)
        print_number(7, 1, copies ? result->row.total / best(&times[i]) : 0);
    for (int i = LIBRARY; i <= PLAIN; i++)
        print_number(8, 0, result->instructions[i]);
    printf("\n");
}

void print_cases(struct results *results)
{
    printf("%-25s%18s%18s%15s%9s%21s%16s\n", "", "library ns", "plain C ns", "ratio", "memcpy",
           "GB/s", "instructions");
    printf("%-25s%10s%8s%10s%8s%8s%7s%9s%7s%7s%7s%8s%8s\n", "case", "best", "median", "best",
           "median", "best", "median", "ns", "lib", "C", "memcpy", "lib", "C");
    for (int i = 0; i < CASE_ROWS; i++)
        print_case(&results->cases[i]);
}

static const char heads[] = "   library  plain C   memcpy  ratio";

static void print_short(const struct result *result)
{
    printf("%10.1f%9.1f%9.1f%7.2f", best(&result->times[LIBRARY]), best(&result->times[PLAIN]),
           best(&result->times[MEMCPY]), ratio(result));
}

/* What a slot after the first costs on average. */
static double slope(const struct result rows[SLOT_ROWS], int contender)
{
    return (best(&rows[SLOT_ROWS - 1].times[contender]) - best(&rows[0].times[contender])) /
           (SLOT_ROWS - 1);
}

void print_growth(const struct results *results)
{
    const struct result *slots = results->slots;

    printf("\nBest ns by slots, take and finish of %u bytes\n slots%s\n",
           (unsigned)slots[0].row.total, heads);
    for (int i = 0; i < SLOT_ROWS; i++) {
        printf("%6d", i + 1);
        print_short(&slots[i]);
        printf("\n");
    }
    printf("  each%10.1f%9.1f%9.1f         after the first, on average\n", slope(slots, LIBRARY),
           slope(slots, PLAIN), slope(slots, MEMCPY));

    printf("\nBest ns by bytes%31s%35s\n bytes slots%s%s\n", "transmit", "receive", heads, heads);
    for (int i = 0; i < BYTE_ROWS; i++) {
        const struct row *row = &results->transmit[i].row;

        printf("%6u%6u", (unsigned)row->total, (unsigned)row->data_slots);
        print_short(&results->transmit[i]);
        print_short(&results->receive[i]);
        printf("\n");
    }
}

void print_worst(const struct results *results)
{
    const struct result *worst = &results->cases[0];

    for (int i = 1; i < CASE_ROWS; i++)
        if (ratio(&results->cases[i]) > ratio(worst))
            worst = &results->cases[i];
    printf("\nworst ratio of best times: %.2f, %s\n", ratio(worst), worst->row.name);
}
