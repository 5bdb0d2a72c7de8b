/* Numbers in pages, the lowest octet first. The bench measures plain C with these in it. */
#ifndef OCTETS_H
#define OCTETS_H

#include <stdint.h>

static inline uint16_t get16(const uint8_t *from)
{
    return (uint16_t)(from[0] | from[1] << 8);
}

static inline uint32_t get32(const uint8_t *from)
{
    return get16(from) | (uint32_t)get16(from + 2) << 16;
}

/* Writes the lower half of a value. */
static inline void put16(uint8_t *to, uint32_t value)
{
    const uint16_t half = (uint16_t)value;

    to[0] = (uint8_t)half;
    to[1] = (uint8_t)(half >> 8);
}

static inline void put32(uint8_t *to, uint32_t value)
{
    put16(to, value);
    put16(to + 2, value >> 16);
}

#endif
