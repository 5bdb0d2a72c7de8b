/*
 * How a device confirms the packets that it has got: each some turns later, in any order, and those
 * that it forgets never.
 */
#ifndef CONFIRMER_H
#define CONFIRMER_H

#include <stdbool.h>
#include <stdint.h>
#include <string.h>

#include "back_ring.h"
#include "lapse.h"
#include "rng.h"

/* A packet, and what becomes of it. */
struct confirmation {
    struct back_ticket ticket;
    int32_t status;
};

struct confirmer {
    const struct lapses *lapses;
    struct rng rng;
    uint32_t count;                                 /* packets to be confirmed */
    struct confirmation packet[TOLLMEANDER_HELD_MAX];
};

static inline void confirmer_open(struct confirmer *confirmer, const struct lapses *lapses,
                                  uint64_t seed)
{
    memset(confirmer, 0, sizeof *confirmer);
    confirmer->lapses = lapses;
    confirmer->rng = rng_of(seed, UINT64_MAX - 1);
}

/* The device gets packet number. */
static inline void confirmer_give(struct confirmer *confirmer, struct back_ticket ticket,
                                  uint64_t number)
{
    enum lapse lapse = lapse_of(confirmer->lapses, number);

    if (lapse != LAPSE_FORGET)
        confirmer->packet[confirmer->count++] =
            (struct confirmation){ ticket, lapse_status(lapse) };
}

/* How many packets the device confirms this turn: any number of those that it has got. */
static inline uint32_t confirmer_turn(struct confirmer *confirmer)
{
    return rng_below(&confirmer->rng, confirmer->count + 1);
}

/* Confirms one of the packets, any of them. There must be one. */
static inline struct confirmation confirmer_confirm(struct confirmer *confirmer)
{
    uint32_t i = rng_below(&confirmer->rng, confirmer->count);
    struct confirmation confirmed = confirmer->packet[i];

    confirmer->packet[i] = confirmer->packet[--confirmer->count];
    return confirmed;
}

#endif
