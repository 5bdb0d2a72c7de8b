/*
 * What a device does with some of the packets that it gets. Device and guest work it out
 * independently of each other.
 */
#ifndef LAPSE_H
#define LAPSE_H

#include <stdint.h>

#include "tollmeander.h"

enum lapse {
    LAPSE_NONE,     /* it confirms the packet as okay */
    LAPSE_FAIL,     /* as error */
    LAPSE_DROP,     /* as dropped */
    LAPSE_FORGET    /* never */
};

/* The lapses of one device. */
struct lapses {
    enum lapse lapse;
    uint64_t first; /* the first packet with it */
    uint64_t step;  /* from one such packet to the next; 0 if there is one only */
};

/* What becomes of packet number. */
static inline enum lapse lapse_of(const struct lapses *lapses, uint64_t number)
{
    uint64_t past = number - lapses->first;

    if (number < lapses->first)
        return LAPSE_NONE;
    return (lapses->step == 0 ? past : past % lapses->step) == 0 ? lapses->lapse : LAPSE_NONE;
}

/* The status that a packet is confirmed with, and replied to. */
static inline int32_t lapse_status(enum lapse lapse)
{
    return lapse == LAPSE_FAIL ? TOLLMEANDER_REPLY_ERROR
         : lapse == LAPSE_DROP ? TOLLMEANDER_REPLY_DROPPED
                               : TOLLMEANDER_REPLY_OKAY;
}

#endif
