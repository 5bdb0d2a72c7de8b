/* The scene of the tests of the host's end: what a call has changed of the guest's page. */
#ifndef BACK_SCENE_H
#define BACK_SCENE_H

#include "scene.h"

static struct ring_page before;

/* Takes the page as it is now for the one that calls find. */
static inline void keep_page(void)
{
    memcpy(&before, &page, sizeof page);
}

/* Words of the page that are others than those kept. */
static inline uint32_t changed(void)
{
    uint32_t count = 0;

    for (uint32_t at = 0; at < RING_WORDS; at++)
        if (word(at) != atomic_load_explicit(&before.word[at], memory_order_relaxed))
            count++;
    return count;
}

#endif
