#include "table.h"

#include <inttypes.h>
#include <stdio.h>

#include "names.h"

void table_add(struct table *table, const char *name, const char *end,
               const struct counters *count)
{
    struct table_line *line = &table->line[table->connections % TABLE_LINES];

    if (table->connections >= TABLE_LINES)
        counters_add(&table->earlier, &line->count);
    snprintf(line->name, sizeof line->name, "%s", name);
    line->end = end;
    line->count = *count;
    table->connections++;
}

/* Prints a count that is not 0; what goes before the next one. */
static const char *print_count(const char *before, const char *what, uint64_t count)
{
    if (count == 0)
        return before;
    printf("%s%s %" PRIu64, before, what, count);
    return ", ";
}

/* Each answer of a ring by name, a refused packet by its cause as well. */
static void print_ring(const char *ring, const struct ring_counters *count)
{
    const char *before = "";

    printf("    %s: ", ring);
    for (uint32_t i = 0; i < COUNTERS_ANSWERS; i++)
        if (i != TOLLMEANDER_SPOILED)
            before = print_count(before, tollmeander_answer_name(i), count->answer[i]);
    for (uint32_t i = 0; i < COUNTERS_CAUSES; i++) {
        if (count->cause[i] == 0)
            continue;
        printf("%s%s (%s) %" PRIu64, before, tollmeander_answer_name(TOLLMEANDER_SPOILED),
               tollmeander_cause_name(i), count->cause[i]);
        before = ", ";
    }
    puts(*before ? "" : "nothing");
}

/* What the device said of the packets taken. */
static void print_finish(const struct finish_counters *count)
{
    const char *before = "";

    printf("    finished: ");
    before = print_count(before, "okay", count->okay);
    before = print_count(before, "error", count->error);
    before = print_count(before, "dropped", count->dropped);
    before = print_count(before, "overdue", count->overdue);
    before = print_count(before, "late", count->late);
    puts(*before ? "" : "nothing");
}

static void print_line(const char *name, const char *end, const struct counters *count)
{
    printf("%-8s %8" PRIu64 " %11" PRIu64 " %8" PRIu64 " %4" PRIu64 " %6" PRIu64 " %8" PRIu64
           " %11" PRIu64 " %7" PRIu64 " %9" PRIu64 "  %s\n", name,
           count->transmit.answer[TOLLMEANDER_DONE], count->bytes, count->slots,
           count->most_slots, count->gso, count->receive.answer[TOLLMEANDER_DONE],
           count->given_bytes, count->dropped, count->receive.answer[TOLLMEANDER_SPOILED], end);
    print_ring("transmit", &count->transmit);
    print_finish(&count->finish);
    print_ring("receive", &count->receive);
}

static void print_head(void)
{
    const char *const form = "%-8s %8s %11s %8s %4s %6s %8s %11s %7s %9s  %s\n";

    printf(form, "", "packets", "bytes", "slots", "most", "gso", "frames", "bytes", "", "not", "");
    printf(form, "vif", "taken", "taken", "taken", "in 1", "taken", "given", "given", "dropped",
           "delivered", "end");
}

void table_print(const struct table *table)
{
    uint64_t first = table->connections > TABLE_LINES ? table->connections - TABLE_LINES : 0;

    if (table->connections == 0) {
        puts("no guest has connected");
        return;
    }
    print_head();
    if (first > 0)
        print_line("earlier", "(together)", &table->earlier);
    for (uint64_t n = first; n < table->connections; n++) {
        const struct table_line *line = &table->line[n % TABLE_LINES];

        print_line(line->name, line->end, &line->count);
    }
    printf("%" PRIu64 " connections\n", table->connections);
}
