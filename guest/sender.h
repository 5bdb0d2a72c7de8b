/*
 * A simulated guest's transmit side, slot by slot: lays parts of frames into granted pages and
 * writes the slots by hand, also those of packets that have a fault.
 */
#ifndef SENDER_H
#define SENDER_H

#include <stdbool.h>
#include <stdint.h>

#include "guest_pages.h"
#include "slot_ring.h"
#include "traffic.h"

/* The reply that a slot is to get. */
struct expected_reply {
    uint16_t id;
    int16_t status;
};

struct sender {
    struct slot_ring ring;
    struct guest_pages *pages;
    const struct traffic *traffic;
    uint64_t sent;          /* packets written whole */
    uint32_t complete;      /* slots before this counter belong to packets written whole */
    uint32_t place;         /* the next slot of the packet being written; 0 if there is none */
    bool crashed;
    struct packet packet;
    uint8_t frame[TOLLMEANDER_FRAME_MAX];
    struct expected_reply expected[TOLLMEANDER_RING_SLOTS];
    uint64_t wrong_replies;
};

void sender_open(struct sender *sender, struct ring_page *shared, struct guest_pages *pages,
                 const struct traffic *traffic, uint32_t counter);

/* Writes at most limit slots, without publishing them; the number written. */
uint32_t sender_write(struct sender *sender, uint32_t limit);

/* Reads and checks the replies that have come; their number. */
uint32_t sender_collect(struct sender *sender);

/* Slots without a reply. */
uint32_t sender_in_flight(const struct sender *sender);

/* Whether there is nothing more to write. */
bool sender_is_finished(const struct sender *sender);

#endif
