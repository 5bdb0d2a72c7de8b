/*
 * A guest's pages as a host has them that maps a page when a copied slot names it, and unmaps it
 * before the reply to that slot is published. The host's grant table has words for mapped pages
 * and for no others.
 */
#ifndef MAPPING_H
#define MAPPING_H

#include <stdatomic.h>
#include <stdbool.h>
#include <stdint.h>

#include "back_ring.h"

enum { MAPPING_REFERENCES = 1100 };

struct mapping {
    struct guest_memory guest;      /* what the guest grants */
    uint32_t noted;                 /* slots before this counter have been looked at */
    uint8_t words[MAPPING_REFERENCES * TOLLMEANDER_GRANT_WORD_SIZE];
    _Atomic uint32_t slots[MAPPING_REFERENCES]; /* that name the reference and are not consumed */
};

/* Nothing is mapped, of a ring that begins at a counter. */
void mapping_open(struct mapping *mapping, const struct guest_memory *guest, uint32_t counter);

/* What the host lends. */
struct guest_memory mapping_memory(const struct mapping *mapping);

/* After a look: maps what the new slots name, as far as the guest has granted it. */
void mapping_map(struct mapping *mapping, const struct back_ring *ring);

/* After a call: unmaps what the last slots consumed named and no other slot does. */
void mapping_unmap(struct mapping *mapping, const struct back_ring *ring, uint32_t slots);

/* Whether the page of a reference is mapped: what the guest asks when it reads a reply. */
bool mapping_has(const struct mapping *mapping, uint32_t reference);

#endif
