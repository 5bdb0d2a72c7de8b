/* A guest's pages and its grants to them, as both ends of a ring lend them. */
#ifndef TOLLMEANDER_GUEST_MEMORY_H
#define TOLLMEANDER_GUEST_MEMORY_H

#include <stddef.h>
#include <stdint.h>

/*
 * The host's view of a guest's memory, or a driver's own; see tollmeander.h, "Grants and
 * window".
 */
struct guest_memory {
    const uint8_t *grants;
    size_t grants_len;
    uint8_t *window;
    size_t window_len;
};

#endif
