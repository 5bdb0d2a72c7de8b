/*
 * What the tests of one end of a ring stand on: the ring page, which the test writes as the other
 * side would, and some pages granted to be written.
 */
#ifndef SCENE_H
#define SCENE_H

#include <stdint.h>
#include <string.h>

#include "grant_table.h"
#include "guest_memory.h"
#include "ring_page.h"

enum {
    PAGES = 4,
    GREF = 5,                   /* the reference to page 0; the next ones name the next pages */
    FREE_GREF = GREF + PAGES,   /* not granted, but by a test */
    GRANTS = FREE_GREF + 1,
    OLD_OCTET = 0xEE            /* of the pages */
};

static struct ring_page page;
static uint8_t grants[GRANTS * TOLLMEANDER_GRANT_WORD_SIZE];
static uint8_t window[PAGES * TOLLMEANDER_PAGE_SIZE];
static const struct guest_memory granted = { grants, sizeof grants, window, sizeof window };

static inline uint32_t word(uint32_t at)
{
    return atomic_load_explicit(&page.word[at], memory_order_relaxed);
}

static inline void set_word(uint32_t at, uint32_t value)
{
    atomic_store_explicit(&page.word[at], value, memory_order_relaxed);
}

/* Every word of the ring page gets a value of its own. */
static inline void litter_page(void)
{
    for (uint32_t at = 0; at < RING_WORDS; at++)
        set_word(at, 0xC0DE0000 + at);
}

static inline void open_pages(void)
{
    for (uint32_t i = 0; i < PAGES; i++)
        grant_table_set(grants, GREF + i, i, TOLLMEANDER_GRANTED | TOLLMEANDER_GRANT_WRITABLE);
    memset(window, OLD_OCTET, sizeof window);
}

#endif
