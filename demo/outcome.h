/* What must have come of a guest's traffic, and whether it did. */
#ifndef OUTCOME_H
#define OUTCOME_H

#include <stdbool.h>
#include <stdint.h>

#include "guest.h"
#include "lapse.h"
#include "traffic.h"
#include "vif.h"

struct outcome {
    uint64_t frames;        /* handed over */
    uint64_t bytes;
    uint64_t spoiled;
    uint64_t failed;        /* by the device */
    uint64_t dropped;
    uint64_t forgotten;
    uint32_t last_answer;
    uint32_t open_slots;    /* posted and not replied to, unless the guest is disconnected */
};

/* What must come of a traffic and its device's lapses, worked out without a ring. */
struct outcome outcome_expected(const struct traffic *traffic, const struct lapses *lapses);

/* Whether a guest and its vif are as they must be at the end; says what is not. */
bool outcome_check(unsigned number, const struct guest *guest, const struct vif *vif);

#endif
