/* A simulated guest's receive side: posts pages for frames and checks the frames that come. */
#ifndef RECEIVER_H
#define RECEIVER_H

#include <stdbool.h>
#include <stdint.h>

#include "guest_pages.h"
#include "slot_ring.h"
#include "traffic.h"

struct receiver {
    struct slot_ring ring;
    struct guest_pages *pages;
    const struct traffic *traffic;
    uint64_t next;          /* the packet whose frame comes next */
    uint64_t frames;        /* frames that came whole */
    uint64_t wrong_frames;
    uint64_t wrong_replies;
    uint32_t length;        /* bytes of the frame that is coming in */
    uint8_t frame[TOLLMEANDER_FRAME_MAX + TOLLMEANDER_PAGE_SIZE];
};

void receiver_open(struct receiver *receiver, struct ring_page *shared, struct guest_pages *pages,
                   const struct traffic *traffic, uint32_t counter);

/* Writes at most limit requests, without publishing them; the number written. */
uint32_t receiver_write(struct receiver *receiver, uint32_t limit);

/* Reads the replies that have come and checks the frames they make; their number. */
uint32_t receiver_collect(struct receiver *receiver);

#endif
