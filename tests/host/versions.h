/*
 * Versions of slots, for a guest that rewrites slots which it has published.
 *
 * Each ring slot has a page for each version, whose bytes no other page has. A guest rewrites a
 * slot in one of two ways:
 *   one word     a single word of the slot has versions, the others stay. So the slot on the page
 *                is at every moment one of its versions, and a copy of it must be one too.
 *   every word   each word of the slot has versions, written by itself. A copy must have in each
 *                word one of that word's versions.
 */
#ifndef VERSIONS_H
#define VERSIONS_H

#include <stdbool.h>
#include <stdint.h>

#include "back_ring.h"
#include "grant_table.h"
#include "rng.h"
#include "tollmeander.h"

enum {
    VERSIONS = 4,
    VERSION_PAGES = VERSIONS * TOLLMEANDER_RING_SLOTS,
    VERSION_FIRST_GREF = 1,     /* reference 0 is not granted */
    POISON_ID = 0xFFFF          /* the id of no version */
};

enum rewriting { ONE_WORD, EVERY_WORD };

/* The guest's pages and grants. */
struct version_pages {
    uint8_t grants[(VERSION_FIRST_GREF + VERSION_PAGES) * TOLLMEANDER_GRANT_WORD_SIZE];
    uint8_t window[VERSION_PAGES * TOLLMEANDER_PAGE_SIZE];
};

static inline uint32_t version_page_number(uint32_t n, uint32_t version)
{
    return n % TOLLMEANDER_RING_SLOTS * VERSIONS + version;
}

static inline uint8_t *version_page(struct version_pages *pages, uint32_t n, uint32_t version)
{
    return pages->window + TOLLMEANDER_PAGE_SIZE * version_page_number(n, version);
}

static inline uint32_t version_gref(uint32_t n, uint32_t version)
{
    return VERSION_FIRST_GREF + version_page_number(n, version);
}

static inline uint32_t version_id(uint32_t n, uint32_t version)
{
    return 0x1000 + version_page_number(n, version);
}

/* Versions 0 to count - 1 are those that a word of slot n may have. */
static inline uint32_t version_count(enum rewriting rewriting, uint32_t n, uint32_t word,
                                     uint32_t slot_words)
{
    return rewriting == EVERY_WORD || n % slot_words == word ? VERSIONS : 1;
}

static inline void version_pages_grant(struct version_pages *pages)
{
    for (uint32_t i = 0; i < VERSION_PAGES; i++)
        grant_table_set(pages->grants, VERSION_FIRST_GREF + i, i,
                        TOLLMEANDER_GRANTED | TOLLMEANDER_GRANT_WRITABLE);
}

static inline struct guest_memory version_pages_memory(struct version_pages *pages)
{
    struct guest_memory memory = {
        .grants = pages->grants, .grants_len = sizeof pages->grants,
        .window = pages->window, .window_len = sizeof pages->window
    };

    return memory;
}

#endif
