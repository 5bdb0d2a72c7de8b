/*
 * A simulated guest: sends its traffic, posts buffers, and checks the replies and the frames that
 * come back. It sleeps when there is nothing to do, and only an event wakes it. Plain traffic goes
 * by its poster, other traffic by its sender.
 */
#ifndef GUEST_H
#define GUEST_H

#include <stdbool.h>
#include <stdint.h>

#include "events.h"
#include "guest_pages.h"
#include "lapse.h"
#include "poster.h"
#include "receiver.h"
#include "ring_page.h"
#include "rng.h"
#include "sender.h"
#include "traffic.h"

struct guest {
    struct ring_page transmit_page;     /* shared with the host */
    struct ring_page receive_page;      /* shared with the host */
    struct guest_pages pages;
    const struct traffic *traffic;
    const struct lapses *lapses;        /* of its device */
    bool posts;                         /* by the poster; else the sender writes slots */
    bool fills_ring;                    /* the sender sleeps only when its ring is full */
    struct poster poster;
    struct sender sender;
    struct receiver receiver;
    uint64_t replies;                   /* to transmit slots, as far as read */
    struct events *events;
    struct rng rng;
    bool asleep;
};

/* A guest whose rings begin at a counter. Where it writes slots, its device fails and drops none. */
void guest_open(struct guest *guest, const struct traffic *traffic, const struct lapses *lapses,
                struct events *events, uint32_t counter);

/* Does a piece of the guest's work, if it is awake; whether it was. */
bool guest_turn(struct guest *guest);

/* Whether the guest sends nothing more. */
bool guest_is_finished(const struct guest *guest);

/* The counter of transmit slots posted. */
uint32_t guest_posted(const struct guest *guest);

/* Transmit slots whose replies were not read. */
uint32_t guest_in_flight(const struct guest *guest);

/* Replies to packets that are not as they must be. */
uint64_t guest_wrong_replies(const struct guest *guest);

#endif
