/* A simulated guest's memory: a page for each slot of its two rings, and the grants to them. */
#ifndef GUEST_PAGES_H
#define GUEST_PAGES_H

#include <stdbool.h>
#include <stdint.h>

#include "guest_memory.h"
#include "tollmeander.h"

enum {
    GUEST_PAGES = 2 * TOLLMEANDER_RING_SLOTS,
    GUEST_GRANTS = 3 * TOLLMEANDER_RING_SLOTS + 8
};

struct guest_pages {
    uint8_t grants[GUEST_GRANTS * TOLLMEANDER_GRANT_WORD_SIZE];
    uint8_t window[GUEST_PAGES * TOLLMEANDER_PAGE_SIZE];
};

/* Grants the transmit pages, to be written or read only, and the receive pages, to be written. */
void guest_pages_open(struct guest_pages *pages, bool transmit_is_writable);

/* The memory as the host lends it to the library. */
struct guest_memory guest_pages_memory(struct guest_pages *pages);

/* The grant references that belong to slot n; the last kind is never granted. */
uint32_t guest_transmit_gref(uint32_t n);
uint32_t guest_receive_gref(uint32_t n);
uint32_t guest_ungranted_gref(uint32_t n);

/* The pages that these references name. */
uint8_t *guest_transmit_page(struct guest_pages *pages, uint32_t n);
uint8_t *guest_receive_page(struct guest_pages *pages, uint32_t n);

#endif
