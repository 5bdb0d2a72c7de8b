#include "mapping.h"

#include <string.h>

#include "grant_table.h"

enum { WORD = TOLLMEANDER_GRANT_WORD_SIZE };

void mapping_open(struct mapping *mapping, const struct guest_memory *guest, uint32_t counter)
{
    memset(mapping, 0, sizeof *mapping);
    mapping->guest = *guest;
    mapping->noted = counter;
}

struct guest_memory mapping_memory(const struct mapping *mapping)
{
    struct guest_memory memory = mapping->guest;

    memory.grants = mapping->words;
    memory.grants_len = sizeof mapping->words;
    return memory;
}

static bool has_word(const struct mapping *mapping, uint32_t reference)
{
    return reference < MAPPING_REFERENCES && reference < mapping->guest.grants_len / WORD;
}

void mapping_map(struct mapping *mapping, const struct back_ring *ring)
{
    for (; mapping->noted != ring->copied; mapping->noted++) {
        uint32_t reference = back_ring_reference(ring, mapping->noted);

        if (!has_word(mapping, reference))
            continue;
        memcpy(mapping->words + WORD * reference, mapping->guest.grants + WORD * reference, WORD);
        atomic_fetch_add(&mapping->slots[reference], 1);
    }
}

void mapping_unmap(struct mapping *mapping, const struct back_ring *ring, uint32_t slots)
{
    for (uint32_t n = ring->consumed - slots; n != ring->consumed; n++) {
        uint32_t reference = back_ring_reference(ring, n);

        if (has_word(mapping, reference) && atomic_fetch_sub(&mapping->slots[reference], 1) == 1)
            grant_table_clear(mapping->words, reference);
    }
}

bool mapping_has(const struct mapping *mapping, uint32_t reference)
{
    return has_word(mapping, reference) && atomic_load(&mapping->slots[reference]) > 0;
}
