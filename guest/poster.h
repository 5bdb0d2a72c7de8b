/*
 * A simulated guest's transmit side on host/front_ring: hands whole frames to the library, which
 * lays them into the guest's pages, and checks each packet that is replied to.
 */
#ifndef POSTER_H
#define POSTER_H

#include <stdbool.h>
#include <stdint.h>

#include "front_ring.h"
#include "guest_pages.h"
#include "ring_page.h"
#include "traffic.h"

struct poster {
    struct front_ring ring;
    struct guest_memory memory;
    const struct traffic *traffic;
    uint64_t sent;          /* packets posted */
    uint64_t replied;       /* of these, packets replied to */
    uint64_t wrong_replies; /* packets told with another status, slots or pages than theirs */
    uint64_t unexpected;    /* answers that this traffic gives no reason for; the first ends it */
    uint8_t frame[TOLLMEANDER_FRAME_MAX];
};

/* The traffic's packets are plain, and the transmit pages granted to be written. */
void poster_open(struct poster *poster, struct ring_page *shared, struct guest_pages *pages,
                 const struct traffic *traffic, uint32_t counter);

/* Posts the next packet; false if none is left or the ring has no room for it. */
bool poster_post(struct poster *poster, bool *notify);

/* Checks the packets that are replied to; their number. */
uint32_t poster_collect(struct poster *poster);

/* Slots without a reply. */
uint32_t poster_in_flight(const struct poster *poster);

/* Whether there is nothing more to post. */
bool poster_is_finished(const struct poster *poster);

#endif
