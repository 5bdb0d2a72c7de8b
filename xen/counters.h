/* What is counted of one connection. */
#ifndef TOLLMEANDER_COUNTERS_H
#define TOLLMEANDER_COUNTERS_H

#include <stdbool.h>
#include <stdint.h>

#include "names.h"
#include "tollmeander.h"

enum {
    COUNTERS_ANSWERS = TOLLMEANDER_NAMED_ANSWERS + 1,   /* the last is for unknown ones */
    COUNTERS_CAUSES = TOLLMEANDER_NAMED_CAUSES + 1
};

/* Answers of one ring, by number, and causes of those that are SPOILED. */
struct ring_counters {
    uint64_t answer[COUNTERS_ANSWERS];
    uint64_t cause[COUNTERS_CAUSES];
};

/* What the device has said of packets taken. */
struct finish_counters {
    uint64_t okay, error, dropped;
    uint64_t overdue;   /* packets dropped as it said nothing in time */
    uint64_t late;      /* words on packets that were finished already */
};

struct counters {
    struct ring_counters transmit, receive;
    uint64_t bytes, slots, most_slots, gso;         /* of packets taken */
    uint64_t given_bytes;                           /* of frames given */
    uint64_t dropped;   /* frames that had no buffers in time or at the end, or were too long */
    struct finish_counters finish;
};

void counters_take(struct counters *counters, const struct tollmeander_report *report);
void counters_put(struct counters *counters, const struct tollmeander_report *report);

/* The device's word on a packet, which was open or finished already. */
void counters_finish(struct counters *counters, bool was_open, int32_t status);

/* Adds the counters of one connection to those of others. */
void counters_add(struct counters *sum, const struct counters *counters);

#endif
