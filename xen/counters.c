#include "counters.h"

static uint32_t at_most(uint32_t number, uint32_t last)
{
    return number < last ? number : last;
}

static void count_answer(struct ring_counters *ring, const struct tollmeander_report *report)
{
    ring->answer[at_most(report->answer, COUNTERS_ANSWERS - 1)]++;
    if (report->answer == TOLLMEANDER_SPOILED)
        ring->cause[at_most(report->cause, COUNTERS_CAUSES - 1)]++;
}

void counters_take(struct counters *counters, const struct tollmeander_report *report)
{
    count_answer(&counters->transmit, report);
    counters->bytes += report->total;
    counters->slots += report->slots;
    counters->gso += report->gso_type != 0;
    if (report->slots > counters->most_slots)
        counters->most_slots = report->slots;
}

void counters_put(struct counters *counters, const struct tollmeander_report *report)
{
    count_answer(&counters->receive, report);
    counters->given_bytes += report->total;
}

void counters_finish(struct counters *counters, bool was_open, int32_t status)
{
    struct finish_counters *finish = &counters->finish;

    finish->late += !was_open;
    finish->okay += was_open && status == TOLLMEANDER_REPLY_OKAY;
    finish->error += was_open && status == TOLLMEANDER_REPLY_ERROR;
    finish->dropped += was_open && status == TOLLMEANDER_REPLY_DROPPED;
}

static void add_ring(struct ring_counters *sum, const struct ring_counters *ring)
{
    for (unsigned i = 0; i < COUNTERS_ANSWERS; i++)
        sum->answer[i] += ring->answer[i];
    for (unsigned i = 0; i < COUNTERS_CAUSES; i++)
        sum->cause[i] += ring->cause[i];
}

static void add_finish(struct finish_counters *sum, const struct finish_counters *finish)
{
    sum->okay += finish->okay;
    sum->error += finish->error;
    sum->dropped += finish->dropped;
    sum->overdue += finish->overdue;
    sum->late += finish->late;
}

void counters_add(struct counters *sum, const struct counters *counters)
{
    add_ring(&sum->transmit, &counters->transmit);
    add_ring(&sum->receive, &counters->receive);
    sum->bytes += counters->bytes;
    sum->slots += counters->slots;
    sum->gso += counters->gso;
    sum->given_bytes += counters->given_bytes;
    sum->dropped += counters->dropped;
    add_finish(&sum->finish, &counters->finish);
    if (counters->most_slots > sum->most_slots)
        sum->most_slots = counters->most_slots;
}
