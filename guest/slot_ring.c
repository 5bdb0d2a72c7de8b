#include "slot_ring.h"

static void store(struct slot_ring *ring, uint32_t at, uint32_t word, memory_order order)
{
    atomic_store_explicit(&ring->shared->word[at], word, order);
}

static uint32_t load(const struct slot_ring *ring, uint32_t at, memory_order order)
{
    return atomic_load_explicit(&ring->shared->word[at], order);
}

void slot_ring_open(struct slot_ring *ring, struct ring_page *shared, uint32_t slot_words,
                    uint32_t counter)
{
    ring->shared = shared;
    ring->slot_words = slot_words;
    ring->written = counter;
    ring->published = counter;
    ring->replied = counter;
    store(ring, RING_REQ_PROD, counter, memory_order_relaxed);
    store(ring, RING_REQ_EVENT, counter + 1, memory_order_relaxed);
    store(ring, RING_RSP_PROD, counter, memory_order_relaxed);
    store(ring, RING_RSP_EVENT, counter + 1, memory_order_relaxed);
}

uint32_t slot_ring_free(const struct slot_ring *ring)
{
    return TOLLMEANDER_RING_SLOTS - (ring->written - ring->replied);
}

void slot_ring_write(struct slot_ring *ring, const uint32_t *slot)
{
    uint32_t first = ring_slot(ring->slot_words, ring->written++);

    for (uint32_t i = 0; i < ring->slot_words; i++)
        store(ring, first + i, slot[i], memory_order_relaxed);
}

bool slot_ring_publish(struct slot_ring *ring, uint32_t count)
{
    uint32_t req_event;

    ring->published += count;
    store(ring, RING_REQ_PROD, ring->published, memory_order_release);
    atomic_thread_fence(memory_order_seq_cst);
    req_event = load(ring, RING_REQ_EVENT, memory_order_relaxed);
    return ring->published - req_event < count;
}

uint32_t slot_ring_replies(const struct slot_ring *ring)
{
    return load(ring, RING_RSP_PROD, memory_order_acquire) - ring->replied;
}

void slot_ring_read(struct slot_ring *ring, uint32_t *slot)
{
    uint32_t first = ring_slot(ring->slot_words, ring->replied++);

    for (uint32_t i = 0; i < ring->slot_words; i++)
        slot[i] = load(ring, first + i, memory_order_relaxed);
}

bool slot_ring_await(struct slot_ring *ring, uint32_t count)
{
    store(ring, RING_RSP_EVENT, ring->replied + count, memory_order_relaxed);
    atomic_thread_fence(memory_order_seq_cst);
    return slot_ring_replies(ring) < count;
}
