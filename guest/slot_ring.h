/*
 * The guest's end of a ring page, slot by slot, for the demo and the tests: for the receive ring,
 * and for packets that host/front_ring does not make. Replies are not tested here.
 */
#ifndef SLOT_RING_H
#define SLOT_RING_H

#include <stdbool.h>
#include <stdint.h>

#include "ring_page.h"

struct slot_ring {
    struct ring_page *shared;
    uint32_t slot_words;
    uint32_t written;   /* slots written */
    uint32_t published; /* of these, slots published: our req_prod */
    uint32_t replied;   /* replies read */
};

/* Makes the page a fresh one at a counter. */
void slot_ring_open(struct slot_ring *ring, struct ring_page *shared, uint32_t slot_words,
                    uint32_t counter);

/* Slots that may be written. */
uint32_t slot_ring_free(const struct slot_ring *ring);

/* Writes the next slot, without publishing it. */
void slot_ring_write(struct slot_ring *ring, const uint32_t *slot);

/* Publishes the first count of the slots written but not published; whether to notify the host. */
bool slot_ring_publish(struct slot_ring *ring, uint32_t count);

/* Replies that may be read. */
uint32_t slot_ring_replies(const struct slot_ring *ring);

/* Reads the next reply: a whole slot, of which the reply is the first octets. */
void slot_ring_read(struct slot_ring *ring, uint32_t *slot);

/* Asks for an event at the count-th reply from now; whether that is still to come. */
bool slot_ring_await(struct slot_ring *ring, uint32_t count);

#endif
