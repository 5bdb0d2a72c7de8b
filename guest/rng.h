/* Reproducible random numbers (splitmix64). */
#ifndef RNG_H
#define RNG_H

#include <stdint.h>

struct rng {
    uint64_t state;
};

static inline uint64_t rng_next(struct rng *rng)
{
    uint64_t x = rng->state += UINT64_C(0x9E3779B97F4A7C15);

    x = (x ^ (x >> 30)) * UINT64_C(0xBF58476D1CE4E5B9);
    x = (x ^ (x >> 27)) * UINT64_C(0x94D049BB133111EB);
    return x ^ (x >> 31);
}

/* A number below bound, which is not 0. */
static inline uint32_t rng_below(struct rng *rng, uint32_t bound)
{
    return (uint32_t)((rng_next(rng) >> 32) * bound >> 32);
}

/* The random numbers of item number of a seed. */
static inline struct rng rng_of(uint64_t seed, uint64_t number)
{
    struct rng rng = { seed ^ number * UINT64_C(0xD1342543DE82EF95) };

    rng.state = rng_next(&rng);
    return rng;
}

#endif
