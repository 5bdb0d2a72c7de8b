/* A random short pause, so that two threads meet at every point of each other's work. */
#ifndef DAWDLE_H
#define DAWDLE_H

#include <stdint.h>

#include "rng.h"

enum { LONGEST_PAUSE_LOG2 = 11 };

static inline void dawdle(struct rng *rng)
{
    uint32_t turns = rng_below(rng, 1u << rng_below(rng, LONGEST_PAUSE_LOG2));

    for (volatile uint32_t i = 0; i < turns; i++)
        ;
}

#endif
